//! Compares what the listing program prints with the second implementation: `listing PROGRAM WIRING...`.
//! The longest files, those of 2,048 links, are made here where they are refused; the one that is accepted is among the examples.

#[allow(dead_code)]
mod racks;
#[allow(dead_code)]
mod second;

use racks::Rack;
use second::listing::listing;
use std::io::Write;
use std::process::{Command, Stdio};
use std::time::Duration;

/// How much of its input the program reads.
const MOST_INPUT: usize = 8_197;
/// The input comes in pieces of so many bytes.
const PIECE: usize = 3_000;

fn main() {
    let mut words = std::env::args().skip(1);
    let program = words.next().expect("listing PROGRAM WIRING...");
    let mut tried = 0;
    for path in words {
        let file = std::fs::read(&path).expect("a wiring file");
        compare(&program, &path, &file);
        tried += 1;
    }
    for (text, file) in longest_files() {
        assert_eq!(expected(&file), text, "the second implementation");
        compare(&program, &format!("made to be {text:?}"), &file);
        tried += 1;
    }
    println!("listing: {tried} files agree");
}

fn compare(program: &str, name: &str, file: &[u8]) {
    let printed = printed(program, file);
    if printed != expected(file) {
        println!("listing: {name} differs: the program printed\n{printed}");
        std::process::exit(1);
    }
}

/// What the program prints with these bytes on its standard input.
fn printed(program: &str, file: &[u8]) -> String {
    let mut child = Command::new(program)
        .stdin(Stdio::piped())
        .stdout(Stdio::piped())
        .spawn()
        .expect("the listing program");
    let mut input = child.stdin.take().expect("its standard input");
    for piece in file.chunks(PIECE) {
        // a program that has read enough may end before its input does
        if input.write_all(piece).is_err() {
            break;
        }
        std::thread::sleep(Duration::from_millis(2));
    }
    drop(input);
    let output = child.wait_with_output().expect("its standard output");
    assert!(output.status.success(), "{}", output.status);
    String::from_utf8(output.stdout).expect("text")
}

/// The listing of a file, of which only the beginning is read.
fn expected(file: &[u8]) -> String {
    listing(&file[..file.len().min(MOST_INPUT)])
}

/// Files of 8,196 bytes, good links throughout or the last one in fault, and longer ones.
fn longest_files() -> Vec<(&'static str, Vec<u8>)> {
    let with_last = |links: &[(usize, usize)]| {
        let mut rack = two_sides_of_sixteen_each();
        rack.links.truncate(2_048 - links.len());
        rack.links.extend(links);
        rack.bytes()
    };
    let good = two_sides_of_sixteen_each().bytes();
    assert_eq!(good.len() + 1, MOST_INPUT);
    let longer = |more| [good.clone(), vec![0; more]].concat();
    vec![
        ("refused 11\n", good.clone()),
        ("refused 10 link 2047\n", with_last(&[(1, 2)])),
        ("refused 8 link 2047\n", with_last(&[(0, 128), (128, 0)])),
        ("refused 7 link 2047\n", with_last(&[(255, 255)])),
        ("refused 6 link 2047\n", with_last(&[(0, 256)])),
        ("refused 5\n", good[..8_195].to_vec()),
        ("refused 5\n", longer(1)),
        ("refused 5\n", longer(10_000)),
    ]
}

/// 128 cards on each side, each linked to sixteen of the other side: 2,048 links, no odd loop.
fn two_sides_of_sixteen_each() -> Rack {
    let links =
        (0..16).flat_map(|turn| (0..128).map(move |card| (card, 128 + (card + turn) % 128)));
    Rack {
        cards: 256,
        links: links.collect(),
    }
}

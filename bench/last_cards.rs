//! Times adding a card to racks of 255, and taking it off again, beside reading the same plans without their sums.

use crate::growing::{self, check, Growing, Output};
use crate::last_card::Changed;
use crate::openings::read_alone;
use crate::second::PLAN_BYTES;
use std::hint::black_box;
use std::time::Instant;

/// How often two calls are made, one after the other.
const SAMPLES: usize = 500;

pub fn print_table() {
    println!("A card more on racks of 255 cards, and taken off again, in microseconds. A ratio is the call / reading the same plan.\n");
    println!(
        "| Rack | Links | k | Reading | `add_card` | ratio | Reading | `take_card_off` | ratio |"
    );
    println!("|---|{}", "---:|".repeat(8));
    growing::racks_of_255().iter().for_each(print_rack);
}

fn print_rack(growing: &Growing) {
    let Growing {
        name, less, more, ..
    } = growing;
    let output = &mut [0; PLAN_BYTES];
    let added = growing.add(output);
    check(name, added, output, more);
    let taken_off = growing.take_off(output);
    check(name, taken_off, output, less);
    let adding = times(&less.file, |output| growing.add(output));
    let taking_off = times(&more.file, |output| growing.take_off(output));
    let links = u16::from_le_bytes([less.file[2], less.file[3]]);
    let [adding, taking_off] = [adding, taking_off]
        .map(|[read, made]| format!("{read:.2} | {made:.2} | {:.3}", made / read));
    println!(
        "| {name} | {links} | {} | {adding} | {taking_off} |",
        less.file[4]
    );
}

/// The best times of reading a plan and of a call on it, taken in turn.
fn times(plan: &[u8], call: impl Fn(&mut Output) -> Changed) -> [f64; 2] {
    let output = &mut [0; PLAN_BYTES];
    assert_eq!(read_alone(plan), [14, 0, 0]);
    let mut best = [f64::INFINITY; 2];
    for _ in 0..SAMPLES {
        best[0] = best[0].min(microseconds(|| read_alone(black_box(plan))));
        best[1] = best[1].min(microseconds(|| call(output)));
    }
    best
}

fn microseconds<T>(call: impl FnOnce() -> T) -> f64 {
    let start = Instant::now();
    black_box(call());
    start.elapsed().as_secs_f64() * 1e6
}

//! Times walks that name their caller, by number and in a frame, beside walks with one pair of counts.

use crate::callers::{walk_by_caller, walk_lent};
use crate::crossing::walk_frame;
use crate::measured::{self, Frame};
use std::hint::black_box;
use std::time::Instant;

/// How often a time is taken, and how many calls there are in it.
const SAMPLES: usize = 1_000;
const CALLS: u32 = 16;

const CALLER: u8 = 3;

/// In the order of the table.
const WALKS: [fn(&Frame); 3] = [counted, by_caller, lent];

pub fn print_table() {
    println!("Walks that hand the counts of 16 callers in and back, beside those with one pair of counts, in microseconds.\n");
    let names = "`walk_frame` | `walk_by_caller` | `walk_lent`";
    println!("| Rack | k | To itself: {names} | Hops | Longest walk: {names} |");
    println!("|---|{}", "---:|".repeat(8));
    for measured in measured::racks_of_256() {
        if let Some(plan) = measured.plan() {
            print_row(&measured.longest_walks(&plan));
        }
    }
    print_row(&[measured::chain_behind_others()]);
}

fn print_row(frames: &[Frame]) {
    let Frame {
        name,
        plan,
        ends: (from, _),
        answer: [arrived, hops],
    } = &frames[0];
    frames.iter().for_each(check);
    let itself = Frame {
        name,
        plan: plan.clone(),
        ends: (*from, *from),
        answer: [*arrived, 0],
    };
    check(&itself);
    let cells = |times: [f64; 3]| times.map(|time| format!("{time:.2}")).join(" | ");
    let longest = frames.iter().map(times).reduce(worse).expect("a frame");
    println!(
        "| {name} | {} | {} | {hops} | {} |",
        plan[4],
        cells(times(&itself)),
        cells(longest)
    );
}

fn worse(x: [f64; 3], y: [f64; 3]) -> [f64; 3] {
    std::array::from_fn(|walk| x[walk].max(y[walk]))
}

/// The best times of the three walks, taken in turn.
fn times(frame: &Frame) -> [f64; 3] {
    let mut best = [f64::INFINITY; 3];
    for _ in 0..SAMPLES {
        for (best, walk) in best.iter_mut().zip(WALKS) {
            let start = Instant::now();
            (0..CALLS).for_each(|_| walk(black_box(frame)));
            *best = best.min(start.elapsed().as_secs_f64() * 1e6 / f64::from(CALLS));
        }
    }
    best
}

/// All three arrive with the same hops.
fn check(frame: &Frame) {
    let ((from, goal), [arrived, hops]) = (frame.ends, frame.answer);
    let (counted, one) = walk_frame(&frame.plan, from, goal);
    let (named, all) = walk_by_caller(&frame.plan, from, goal, u32::from(CALLER));
    assert_eq!((counted, &one[..2]), (0, &[arrived, hops][..]));
    assert_eq!((named, &all[..2]), (0, &[arrived, hops][..]));
    assert_eq!(walk_lent(&frame.plan, from, &bytes(goal)), (named, all));
}

/// The bytes of a frame to a card.
fn bytes(goal: u32) -> [u8; 3] {
    let [low, high, ..] = goal.to_le_bytes();
    [low, high, CALLER]
}

fn counted(frame: &Frame) {
    black_box(walk_frame(&frame.plan, frame.ends.0, frame.ends.1));
}

fn by_caller(frame: &Frame) {
    let (from, goal) = frame.ends;
    black_box(walk_by_caller(&frame.plan, from, goal, u32::from(CALLER)));
}

fn lent(frame: &Frame) {
    let (from, goal) = frame.ends;
    black_box(walk_lent(&frame.plan, from, &bytes(goal)));
}

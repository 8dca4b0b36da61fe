//! Times steps and walks that pass on the column crossed beside the C walk, which does not.

use crate::calls;
use crate::crossing::{step_frame, walk_frame};
use crate::measured::{self, Frame};
use crate::second::{MET_BYTES, RECORD_BYTES};
use std::hint::black_box;
use std::time::Instant;

/// How often a time is taken, and how many calls there are in it.
const SAMPLES: usize = 1_000;
const CALLS: u32 = 16;

pub fn print_table() {
    println!("Steps and walks with the column that they cross, and the C walk to the same card without it, in microseconds.\n");
    println!(
        "| Rack | k | Worst step: C walk | `step_frame` | Longest walk: C walk | `walk_frame` |"
    );
    println!("|---|---:|---:|---:|---:|---:|");
    for measured in measured::racks_of_256() {
        if let Some(plan) = measured.plan() {
            let steps = worst(&measured.worst_steps(&plan), step);
            let walks = worst(&measured.longest_walks(&plan), walk);
            print_row(measured.name, &plan, Some(steps), Some(walks));
        }
    }
    let frame = measured::stuck_at_hub();
    print_row(frame.name, &frame.plan, Some(times(&frame, step)), None);
    let frame = measured::chain_behind_others();
    print_row(frame.name, &frame.plan, None, Some(times(&frame, walk)));
}

fn print_row(name: &str, plan: &[u8], steps: Option<[f64; 2]>, walks: Option<[f64; 2]>) {
    let cells = |times: Option<[f64; 2]>| match times {
        Some([c, frame]) => format!("{c:.2} | {frame:.2}"),
        None => "|".to_string(),
    };
    println!(
        "| {name} | {} | {} | {} |",
        plan[4],
        cells(steps),
        cells(walks)
    );
}

/// The longest of the times of some frames, each made again and again.
fn worst(frames: &[Frame], call: fn(&Frame)) -> [f64; 2] {
    let longest = |x: [f64; 2], y: [f64; 2]| [x[0].max(y[0]), x[1].max(y[1])];
    let times = frames.iter().map(|frame| times(frame, call));
    times.reduce(longest).expect("a frame")
}

/// The best times of the C walk and of a call, taken in turn.
fn times(frame: &Frame, call: fn(&Frame)) -> [f64; 2] {
    let mut best = [f64::INFINITY; 2];
    for _ in 0..SAMPLES {
        for (best, call) in best.iter_mut().zip([c_walk, call]) {
            let start = Instant::now();
            (0..CALLS).for_each(|_| call(black_box(frame)));
            *best = best.min(start.elapsed().as_secs_f64() * 1e6 / f64::from(CALLS));
        }
    }
    best
}

fn c_walk(frame: &Frame) {
    let (mut met, mut record) = ([0; MET_BYTES], [0; RECORD_BYTES]);
    let (from, to) = frame.ends;
    black_box(calls::walk(&frame.plan, from, to, 0, &mut met, &mut record));
}

fn step(frame: &Frame) {
    black_box(step_frame(&frame.plan, frame.ends.0, frame.ends.1));
}

fn walk(frame: &Frame) {
    black_box(walk_frame(&frame.plan, frame.ends.0, frame.ends.1));
}

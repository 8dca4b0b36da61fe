//! The times of calls on the library and on the second implementation.

use crate::measured::Frame;
use crate::second::{MET_BYTES, PLAN_BYTES, RECORD_BYTES};
use crate::{calls, second};
use std::hint::black_box;
use std::time::Instant;

/// How often a time is taken.
const SAMPLES: u32 = 300;
/// How many hops of repeated walks there are at least in a time that is taken.
const HOPS: u32 = 64;

type Walk = fn(&[u8], u32, u32, u32, &mut [u8], &mut [u8]) -> u32;

/// The best times of the library and of the second implementation, in microseconds.
#[derive(Clone, Copy)]
pub struct Times {
    library: f64,
    second: f64,
}

impl Times {
    const NONE: Times = Times {
        library: f64::INFINITY,
        second: f64::INFINITY,
    };

    pub fn cells(self) -> [String; 3] {
        [self.library, self.second, self.library / self.second].map(|number| format!("{number:.2}"))
    }

    pub fn worse(self, other: Times) -> Times {
        Times {
            library: self.library.max(other.library),
            second: self.second.max(other.second),
        }
    }
}

fn microseconds(job: &mut impl FnMut()) -> f64 {
    let start = Instant::now();
    job();
    start.elapsed().as_secs_f64() * 1e6
}

/// Runs two jobs in turn and keeps the best time of each.
fn best(mut library: impl FnMut(), mut second: impl FnMut()) -> Times {
    let mut times = Times::NONE;
    for _ in 0..SAMPLES {
        times.library = times.library.min(microseconds(&mut library));
        times.second = times.second.min(microseconds(&mut second));
    }
    times
}

pub fn planning(wiring: &[u8]) -> Times {
    let mut lent = [(); 2].map(|_| (vec![0; PLAN_BYTES], [0; RECORD_BYTES]));
    let [(plan, record), (second_plan, second_record)] = &mut lent;
    best(
        || _ = black_box(calls::write_plan(black_box(wiring), plan, record)),
        || {
            _ = black_box(second::write_plan(
                black_box(wiring),
                second_plan,
                second_record,
            ))
        },
    )
}

pub fn reading(plan: &[u8]) -> Times {
    let (mut record, mut second_record) = ([0; RECORD_BYTES], [0; RECORD_BYTES]);
    best(
        || _ = black_box(calls::read_plan(black_box(plan), &mut record)),
        || _ = black_box(second::read_plan(black_box(plan), &mut second_record)),
    )
}

fn make_walks(walk: Walk, frame: &Frame, count: u32) {
    let (from, to) = frame.ends;
    for _ in 0..count {
        let (mut met, mut record) = ([0; MET_BYTES], [0; RECORD_BYTES]);
        let code = walk(black_box(&frame.plan), from, to, 0, &mut met, &mut record);
        black_box((code, &met, &record));
    }
}

/// A walk that is made again and again.
pub fn repeated_walk(frame: &Frame) -> Times {
    let [_, hops] = frame.answer;
    let count = HOPS.div_ceil(hops.max(1));
    let times = best(
        || make_walks(calls::walk, frame, count),
        || make_walks(second::walk, frame, count),
    );
    Times {
        library: times.library / f64::from(count),
        second: times.second / f64::from(count),
    }
}

/// A walk of many that are made in turn: the mean of the best times of each.
pub fn walk_in_turn(frames: &[Frame]) -> Times {
    let mut times = vec![Times::NONE; frames.len()];
    for _ in 0..SAMPLES {
        for (frame, times) in frames.iter().zip(&mut times) {
            let taken = microseconds(&mut || make_walks(calls::walk, frame, 1));
            times.library = times.library.min(taken);
        }
        for (frame, times) in frames.iter().zip(&mut times) {
            let taken = microseconds(&mut || make_walks(second::walk, frame, 1));
            times.second = times.second.min(taken);
        }
    }
    let mean = |time: fn(&Times) -> f64| times.iter().map(time).sum::<f64>() / times.len() as f64;
    Times {
        library: mean(|times| times.library),
        second: mean(|times| times.second),
    }
}

//! Times opening, which reads a plan and sums its hops up, and an address on the opened plan, which tests the sum, beside reading alone, on
//! racks of 256 cards.

use crate::carried::Opened;
use crate::conference::conference_card;
use crate::measured::{self, Measured};
use crate::opening::read_summed;
use crate::second::totals::total_inside;
use std::hint::black_box;
use std::time::Instant;

/// How often the calls are made, one after the other.
const SAMPLES: usize = 500;

pub fn print_table() {
    println!("Opening plans of 256 cards, and a card's address, which tests the sum, in microseconds. A ratio is the call / reading.\n");
    println!(
        "| Rack | Links | k | Sum of hops | Reading | `read_summed` | ratio | Address | ratio |"
    );
    println!("|---|{}", "---:|".repeat(8));
    for measured in measured::racks_of_256() {
        if let Some(plan) = measured.plan() {
            print_rack(&measured, &plan);
        }
    }
}

/// A conference of no cards, refused with 14: it reads the plan and does no more.
pub fn read_alone(plan: &[u8]) -> [u32; 3] {
    conference_card(plan, [u32::MAX; 3])
}

fn print_rack(measured: &Measured, plan: &[u8]) {
    let (number, [n, m, k, total]) = read_summed(plan);
    let (name, right) = (measured.name, total_inside(plan));
    assert_eq!((number, Some(total)), (0, right), "{name}");
    assert_eq!(read_alone(plan), [14, 0, 0], "{name}");
    let opened = Opened {
        bytes: plan,
        sizes: [n, m, k],
        total,
    };
    assert_eq!(opened.address(n - 1).len(), k.div_ceil(8) as usize);
    let [read, summed, address] = times(opened);
    println!(
        "| {name} | {m} | {k} | {total} | {read:.2} | {summed:.2} | {:.3} | {address:.2} | {:.3} |",
        summed / read,
        address / read
    );
}

/// The best times of reading, of opening and of an address, taken in turn.
fn times(opened: Opened) -> [f64; 3] {
    let plan = opened.bytes;
    let mut best = [f64::INFINITY; 3];
    for _ in 0..SAMPLES {
        let taken = [
            microseconds(|| read_alone(black_box(plan))),
            microseconds(|| read_summed(black_box(plan))),
            microseconds(|| black_box(opened).address(0).len()),
        ];
        best = std::array::from_fn(|call| best[call].min(taken[call]));
    }
    best
}

fn microseconds<T>(call: impl FnOnce() -> T) -> f64 {
    let start = Instant::now();
    black_box(call());
    start.elapsed().as_secs_f64() * 1e6
}

//! Times the worst conferences of racks of 256 cards beside the same call refused with 14, which reads the plan and does no more.

use crate::conference::conference_card;
use crate::measured::{self, Conference, Measured};
use std::hint::black_box;
use std::time::Instant;

/// How often the two calls are made, one after the other.
const SAMPLES: usize = 1_000;

pub fn print_table() {
    println!("Conference cards of racks of 256 cards, in microseconds. Refused with 14, the call reads the plan and does no more.\n");
    println!("| Rack | k | Pairs counted | Card | Refused | Answered | More |");
    println!("|---|---:|---:|---:|---:|---:|---:|");
    for measured in measured::racks_of_256() {
        if let Some(plan) = measured.plan() {
            print_rack(&measured, &plan);
        }
    }
}

fn print_rack(measured: &Measured, plan: &[u8]) {
    let Conference {
        counts,
        three,
        answer,
        refused,
    } = measured.worst_conference(plan);
    assert_eq!(conference_card(plan, three), answer, "{}", measured.name);
    assert_eq!(conference_card(plan, refused), [14, 0, 0]);
    let times: Vec<(f64, f64)> = (0..SAMPLES)
        .map(|_| (microseconds(plan, refused), microseconds(plan, three)))
        .collect();
    let best = |time: fn(&(f64, f64)) -> f64| times.iter().map(time).fold(f64::INFINITY, f64::min);
    let mut more: Vec<f64> = times
        .iter()
        .map(|(refused, answered)| answered - refused)
        .collect();
    more.sort_by(f64::total_cmp);
    let card = match answer {
        [_, 0, _] => "none".to_string(),
        [_, _, card] => card.to_string(),
    };
    println!(
        "| {} | {} | {counts} | {card} | {:.2} | {:.2} | {:.2} |",
        measured.name,
        plan[4],
        best(|times| times.0),
        best(|times| times.1),
        more[SAMPLES / 2]
    );
}

fn microseconds(plan: &[u8], three: [u32; 3]) -> f64 {
    let start = Instant::now();
    black_box(conference_card(black_box(plan), three));
    start.elapsed().as_secs_f64() * 1e6
}

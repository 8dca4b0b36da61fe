//! Sizes, sums, lengths, callers, their counts and frames drawn at random, at their limits too.

use crate::drawn::{some_card, some_count, some_length, MOST};
use crate::inner_both::Name;
use crate::inner_lent::Lengths;
use crate::racks::Rng;
use crate::second::callers::{CALLERS, COUNTS};

/// The sizes in the bytes, 0 where there are none.
pub fn sizes_in(plan: &[u8]) -> [u32; 3] {
    [0, 2, 4].map(|at| {
        plan.get(at..at + 2)
            .map_or(0, |two| u32::from(two[0]) + 256 * u32::from(two[1]))
    })
}

/// Mostly the sizes in the bytes; else one of them is another.
pub fn some_sizes(rng: &mut Rng, plan: &[u8]) -> [u32; 3] {
    let mut sizes = sizes_in(plan);
    if rng.below(4) == 0 {
        let (size, any) = (rng.below(3), rng.draw() as u32);
        let old = sizes[size];
        sizes[size] = rng.pick(&[
            0,
            old.wrapping_sub(1),
            old + 1,
            old + 65_536,
            sizes[(size + 1) % 3],
            any,
        ]);
    }
    sizes
}

/// Mostly the right sum; else another, or any.
pub fn some_total(rng: &mut Rng, right: u32) -> u32 {
    let any = rng.draw() as u32;
    match rng.below(5) {
        0 => rng.pick(&[
            0,
            right.wrapping_sub(1),
            right.wrapping_add(1),
            right.wrapping_mul(2),
            MOST,
            any,
        ]),
        _ => right,
    }
}

/// Mostly the right lengths. Counts and turns are always lent for all callers.
pub fn some_lengths(rng: &mut Rng, name: Name) -> Lengths {
    let right = name.lengths();
    if rng.below(12) > 0 {
        return right;
    }
    Lengths {
        words: some_length(rng, right.words),
        bytes: some_length(rng, right.bytes),
        met: some_length(rng, right.met),
        traffic: right.traffic,
        turns: right.turns,
        fields: some_length(rng, right.fields),
    }
}

/// Mostly a caller of the record, at times a number near or beyond the last one.
pub fn some_caller(rng: &mut Rng) -> u32 {
    let (callers, any) = (CALLERS as u32, rng.draw() as u32);
    match rng.below(12) {
        0 => rng.pick(&[callers, callers + 1, 255, 256, 65_536, MOST, any]),
        1 => rng.pick(&[0, callers - 1]),
        _ => any % callers,
    }
}

pub fn some_traffic(rng: &mut Rng) -> [u32; COUNTS] {
    std::array::from_fn(|_| some_count(rng))
}

/// Mostly a frame of three bytes or more, to some card of a plan.
pub fn some_frame(rng: &mut Rng, plan: &[u8]) -> Vec<u8> {
    let [low, high, ..] = some_card(rng, plan).to_le_bytes();
    let own = rng.pick(&[0, 0, 1, 2, 300]);
    let mut frame = [&[low, high, some_caller(rng) as u8][..], &rng.bytes(own)].concat();
    if rng.below(12) == 0 {
        frame.truncate(rng.below(3));
    }
    frame
}

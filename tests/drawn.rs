//! Card numbers, counts and lengths drawn at random, at their limits too.

use crate::racks::Rng;

pub const MOST: u32 = u32::MAX;

/// Mostly a card of the plan, at times a number near or beyond the last one.
pub fn some_card(rng: &mut Rng, plan: &[u8]) -> u32 {
    let cards = match plan {
        [low, high, ..] => u32::from(u16::from_le_bytes([*low, *high])).max(1),
        _ => 1,
    };
    let any = rng.draw() as u32;
    match rng.below(16) {
        0 => rng.pick(&[
            cards,
            cards - 1,
            cards + 1,
            256,
            65_536,
            65_536 + cards - 1,
            MOST,
            any,
        ]),
        1 => cards - 1,
        _ => any % cards,
    }
}

pub fn some_count(rng: &mut Rng) -> u32 {
    let any = rng.draw() as u32;
    let near = MOST - rng.below(260) as u32;
    rng.pick(&[0, 1, any, any, near, near, MOST - 1, MOST])
}

/// Mostly the right length.
pub fn some_length(rng: &mut Rng, right: usize) -> usize {
    match right {
        0 => 0,
        _ => rng.pick(&[0, right - 1, right, right, right + 1]),
    }
}

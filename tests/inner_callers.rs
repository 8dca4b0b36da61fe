//! What the calls that name a caller mean, by the second implementation.

use crate::inner_both::{Call, Name};
use crate::inner_lent::Lents;
use crate::inner_second::put;
use crate::second::callers::{self, Record};

/// With a refusal the counts of all callers come back as they were, beside zeros.
pub fn caller_walk(call: &Call, plan: &[u8], lent: &mut Lents) -> u32 {
    let mut record = Record::of(&call.traffic);
    put(lent, &[0; 4]);
    if lent.met.items().len() != call.name.lengths().met {
        return 1;
    }
    let counted = match call.name {
        Name::WalkLent => record.walk_lent(plan, call.from, call.frames[0]),
        _ => record.walk(plan, call.from, call.goal, call.caller),
    };
    let (walk, [found, column]) = match counted {
        Ok(counted) => (counted.walk, counted.column),
        Err(refusal) => return refusal.number,
    };
    let cards: Vec<u16> = walk.met.iter().map(|&card| card as u16).collect();
    lent.met.items_mut().fill(0);
    lent.met.put(&cards);
    let (arrived, hops) = (usize::from(walk.arrived), cards.len() - 1);
    put(lent, &[arrived, hops, found, column]);
    lent.traffic.put(&record.counts());
    0
}

/// The very frame that goes, told by how far behind the first frame's first byte it begins, and by its length; with a refusal none of the
/// first frame's bytes.
pub fn next_frame(call: &Call, lent: &mut Lents) -> u32 {
    let [first, _] = call.frames;
    match callers::next_frame(call.frames, lent.turns.items_mut()) {
        Ok(goes) => {
            let frame = call.frames[goes];
            let offset = (frame.as_ptr() as usize).wrapping_sub(first.as_ptr() as usize);
            lent.part = Some((offset, frame.len()));
            0
        }
        Err(refusal) => {
            lent.part = Some((0, 0));
            refusal.number
        }
    }
}

//! Cards hung on the plans of the rounds and taken off again, with the sums of hops before and after.

use crate::drawn::{some_card, MOST};
use crate::inner_both::{Answer, Both, Call, Name};
use crate::inner_drawn::{sizes_in, some_total};
use crate::inner_lent::Lengths;
use crate::racks::Rng;
use crate::second::plans::Layout;
use crate::second::totals::{hops_to_all, total_inside};
use crate::second::MOST_CARDS;
use crate::stop;

/// The calls that add a card and take the last one off, over bytes and on an opened plan.
pub const CHANGES: [[Name; 2]; 2] = [
    [Name::AddCard, Name::TakeCardOff],
    [Name::AddCarried, Name::TakeOffCarried],
];

/// A plan's bytes and its sum of hops.
#[derive(Clone, Copy, PartialEq)]
pub struct Summed<'a> {
    pub plan: &'a [u8],
    pub total: u32,
}

/// Hanging a card on a card, or taking off the last one.
pub fn change(name: Name, old: Summed, card: u32) -> Call<'static> {
    Call {
        sizes: sizes_in(old.plan),
        total: old.total,
        from: card,
        ..Call::new(name)
    }
}

/// The new plan, none and 0 with a refusal.
pub fn new_plan(answer: &Answer) -> Summed<'_> {
    let (fields, bytes) = (answer.lent.fields.items(), answer.lent.bytes.items());
    Summed {
        plan: &bytes[..fields[0] as usize],
        total: fields[1],
    }
}

/// Hangs a card on each card of a sound plan and takes it off again, takes off the plan's own last card, and makes calls that are
/// refused.
pub fn change_plan(both: &mut Both, rng: &mut Rng, plan: &[u8], total: u32) {
    let old = Summed { plan, total };
    let [cards, ..] = sizes_in(plan);
    for card in 0..cards {
        add_and_take_off(both, rng, old, card);
    }
    for [adding, taking_off] in CHANGES {
        for card in [cards, MOST_CARDS as u32, MOST] {
            both.call(change(adding, old, card), plan, adding.lengths());
        }
        both.call(change(taking_off, old, 0), plan, taking_off.lengths());
        for name in [adding, taking_off] {
            for lengths in wrong_lengths(name.lengths()) {
                let total = some_total(rng, total);
                both.call(change(name, Summed { plan, total }, 0), plan, lengths);
            }
        }
    }
}

/// Makes the calls on a plan that may be unfit for reading, mostly with the sum that it had before.
pub fn change_damaged(both: &mut Both, rng: &mut Rng, plan: &[u8], total: u32) {
    let inside = total_inside(plan);
    for name in CHANGES.into_iter().flatten() {
        let card = some_card(rng, plan);
        let total = some_total(rng, total);
        let call = change(name, Summed { plan, total }, card);
        let number = both.call(call, plan, name.lengths()).number;
        both.counted.sums.damaged += u64::from(number == 13 && inside == Some(total));
    }
}

/// Adding raises the sum by n and by the card's hops to all cards. What was added is taken off again, whichever way round its link is
/// drawn, and leaves the bytes and the sum as they were.
fn add_and_take_off(both: &mut Both, rng: &mut Rng, old: Summed, card: u32) {
    let [adding, taking_off] = rng.pick(&CHANGES);
    let added = both.call(change(adding, old, card), old.plan, adding.lengths());
    if added.number != 0 {
        return;
    }
    let raised = raised_sum(old, card as usize);
    let mut longer = new_plan(&added).plan.to_vec();
    let total = new_plan(&added).total;
    if rng.below(2) == 0 {
        turn_last_link(&mut longer);
    }
    let more = Summed {
        plan: &longer,
        total,
    };
    let taken_off = both.call(change(taking_off, more, 0), &longer, taking_off.lengths());
    let left = new_plan(&taken_off);
    if Some(total) != raised || left != old {
        stop(&format!(
            "FAILED: a card on card {card} made the sum {} into {total}, not {raised:?}, and was taken off to {}: {:02x?}",
            old.total, left.total, old.plan
        ));
    }
}

/// The old sum, n and the card's hops, by the second implementation.
pub fn raised_sum(old: Summed, card: usize) -> Option<u32> {
    let wiring = Layout::new(old.plan).ok()?.wiring();
    Some(old.total + wiring.cards as u32 + hops_to_all(&wiring, card))
}

fn turn_last_link(plan: &mut [u8]) {
    let links = usize::from(plan[2]) + 256 * usize::from(plan[3]);
    let (firsts, seconds) = plan[6..6 + 4 * links].split_at_mut(2 * links);
    let last = 2 * links - 2..;
    firsts[last.clone()].swap_with_slice(&mut seconds[last]);
}

/// The output or the answer's fields one too short or too long.
fn wrong_lengths(right: Lengths) -> [Lengths; 4] {
    let Lengths { bytes, fields, .. } = right;
    [
        (bytes - 1, fields),
        (bytes + 1, fields),
        (bytes, fields - 1),
        (bytes, fields + 1),
    ]
    .map(|(bytes, fields)| Lengths {
        bytes,
        fields,
        ..right
    })
}

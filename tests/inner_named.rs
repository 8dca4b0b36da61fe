//! The cases that the rules name of a card more and a card less. What they leave is the plan of a rack that is made by itself, and the sum
//! of its hops.

use crate::inner_both::{Both, Name};
use crate::inner_changes::{change, new_plan, Summed, CHANGES};
use crate::racks::{chain, cube, ring, star, Rack};
use crate::second::planner::plan;
use crate::second::totals::total_of_columns;
use crate::second::MOST_CARDS;
use crate::stop;
use std::ops::Range;

/// The cards of racks that get one more: from no column to addresses of three bytes, and up to the most cards.
const FEW: Range<usize> = 1..18;
const MANY: Range<usize> = MOST_CARDS - 2..MOST_CARDS;

/// Each two cards are as far apart as their numbers.
fn chain_total(cards: usize) -> u32 {
    (1..cards).map(|hops| (hops * (cards - hops)) as u32).sum()
}

/// Each card is a hop from card 0, and each two others are two hops apart.
fn star_total(cards: usize) -> u32 {
    let others = cards as u32 - 1;
    others + others * others.saturating_sub(1)
}

pub fn check(both: &mut Both) {
    for cards in FEW.chain(MANY) {
        let [chains, stars] = [chain_total, star_total].map(|sum| [cards, cards + 1].map(sum));
        grows(both, [chain(cards), chain(cards + 1)], chains, cards - 1);
        grows(both, [star(cards), star(cards + 1)], stars, 0);
    }
    for (rack, total) in [
        (chain(MOST_CARDS), chain_total(MOST_CARDS)),
        (star(MOST_CARDS), star_total(MOST_CARDS)),
        (cube(8), 131_072),
        (cube(8).twice(), 131_072),
    ] {
        let plan = &plan_of(&rack);
        for [adding, _] in CHANGES {
            refused(both, adding, MOST_CARDS - 1, Summed { plan, total }, 16);
            refused(both, adding, MOST_CARDS, Summed { plan, total }, 14);
        }
    }
    for rack in racks_for_17() {
        let plan = &plan_of(&rack);
        let total = total_of_columns(plan);
        for [_, taking_off] in CHANGES {
            refused(both, taking_off, 0, Summed { plan, total }, 17);
        }
    }
    for (rack, total) in [(ring(6), 27), (cube(8), 131_072)] {
        let mut plan = plan_of(&rack);
        let end = plan.len() - 1;
        plan[end] ^= 1;
        for (plan, number) in [(&plan[..end], 12), (&plan, 13)] {
            for [adding, taking_off] in CHANGES {
                refused(both, adding, rack.cards, Summed { plan, total }, number);
                refused(both, taking_off, 0, Summed { plan, total }, number);
            }
        }
    }
}

/// Racks whose last card does not hang on the last link alone: the only card, cards with more links, with a doubled one, and with another
/// link.
fn racks_for_17() -> [Rack; 14] {
    let of = |cards, links: &[(usize, usize)]| Rack {
        cards,
        links: links.to_vec(),
    };
    let mut long_chain = chain(MOST_CARDS);
    long_chain.links.swap(0, MOST_CARDS - 2);
    [
        chain(1),
        ring(4),
        ring(6),
        ring(MOST_CARDS),
        cube(8),
        of(3, &[(0, 2), (2, 1)]),
        of(4, &[(3, 0), (3, 1), (3, 2)]),
        of(4, &[(0, 1), (2, 3), (1, 2)]),
        long_chain,
        of(2, &[(0, 1), (1, 0)]),
        of(3, &[(0, 1), (1, 2), (1, 2)]),
        of(3, &[(2, 1), (0, 1), (1, 2)]),
        chain(MOST_CARDS).twice(),
        cube(8).twice(),
    ]
}

/// The plan that the second implementation writes.
pub fn plan_of(rack: &Rack) -> Vec<u8> {
    match plan(&rack.bytes()) {
        Ok(planned) => planned.bytes(),
        Err(_) => stop("FAILED: a rack of the named cases is refused"),
    }
}

/// A card hung on a card of one rack makes it the other, and taken off, its link drawn either way, the one again.
fn grows(both: &mut Both, [less, more]: [Rack; 2], [sum, raised]: [u32; 2], card: usize) {
    let mut turned = more.clone();
    turned.links.pop();
    turned.links.push((less.cards, card));
    let plans = [less, more, turned].map(|rack| plan_of(&rack));
    let of = |rack: usize, total: u32| Summed {
        plan: &plans[rack],
        total,
    };
    let [less, more, turned] = [of(0, sum), of(1, raised), of(2, raised)];
    for [adding, taking_off] in CHANGES {
        leaves(both, adding, card, less, more);
        leaves(both, taking_off, 0, more, less);
        leaves(both, taking_off, 0, turned, less);
    }
}

fn leaves(both: &mut Both, name: Name, card: usize, old: Summed, new: Summed) {
    let answer = both.call(change(name, old, card as u32), old.plan, name.lengths());
    let (number, left) = (answer.number, new_plan(&answer));
    if number != 0 || left != new {
        stop(&format!(
            "FAILED: {name:?} {card}: answered with {number}, left the sum {} and {:02x?}, not {} and {:02x?}",
            left.total, left.plan, new.total, new.plan
        ));
    }
}

fn refused(both: &mut Both, name: Name, card: usize, old: Summed, number: u32) {
    let answer = both.call(change(name, old, card as u32), old.plan, name.lengths());
    let (given, left) = (answer.number, new_plan(&answer));
    let nothing = Summed {
        plan: &[],
        total: 0,
    };
    if given != number || left != nothing {
        stop(&format!(
            "FAILED: {name:?} {card}: answered with {given}, not {number}, and the sum {}: {:02x?}",
            left.total, old.plan
        ));
    }
}

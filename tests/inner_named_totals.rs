//! The cases that the rules name of the sum of hops: the sums of some racks, what an opened plan with another sum is answered with, and the
//! sums of racks with a card more.

use crate::inner_both::{Both, Call, Name, CARRYING_SUMS};
use crate::inner_changes::{change, new_plan, raised_sum, Summed, CHANGES};
use crate::inner_drawn::sizes_in;
use crate::inner_lent::Lengths;
use crate::inner_named::plan_of;
use crate::inner_totals::{carries, opens, sizes_beside, totals_beside, Opened, Wrong};
use crate::racks::{chain, cube, ring, star, Rack};
use crate::second::MOST_CARDS;
use crate::stop;

/// The calls that take an opened plan's sizes and no sum.
const STEPS: [Name; 2] = [Name::StepCarried, Name::WalkCarried];
/// The calls that take an opened plan's sum and name a card.
const NAMING_CARDS: [Name; 4] = [
    Name::AddressCarried,
    Name::ConferenceCarried,
    Name::AddCard,
    Name::AddCarried,
];

/// Racks with their sums, and whether the last card can be taken off. P4, P5 and P6 are a chain of three cards and rings of four and six.
fn sums() -> [(&'static str, Rack, u32, bool); 7] {
    [
        ("one card", chain(1), 0, false),
        ("P4", chain(3), 4, true),
        ("P5", ring(4), 8, false),
        ("P6", ring(6), 27, false),
        ("the chain of 256", chain(MOST_CARDS), 2_796_160, true),
        ("the star of 256", star(MOST_CARDS), 65_025, true),
        ("the 8-cube", cube(8), 131_072, false),
    ]
}

/// Racks, their sums, a card, and the sum with a card more on it.
fn raised_sums() -> [(Rack, u32, usize, u32); 8] {
    let long = MOST_CARDS - 1;
    [
        (chain(1), 0, 0, 1),
        (chain(3), 4, 0, 10),
        (chain(3), 4, 1, 9),
        (chain(3), 4, 2, 10),
        (ring(4), 8, 3, 16),
        (ring(6), 27, 4, 42),
        (chain(long), 2_763_520, long - 1, 2_796_160),
        (star(long), 64_516, 0, 65_025),
    ]
}

pub fn check(both: &mut Both) {
    for (name, rack, total, taken_off) in sums() {
        let plan = plan_of(&rack);
        opens(both, name, &plan, Some(total));
        wrong_fields(both, &plan);
        let else_number = |name: Name| match name {
            Name::AddCard | Name::AddCarried if rack.cards == MOST_CARDS => 16,
            Name::TakeCardOff | Name::TakeOffCarried if !taken_off => 17,
            _ => 0,
        };
        numbers_beside(both, &plan, total, else_number);
        no_card(both, &plan, total);
        no_room(both, &plan, total);
        damaged(both, &plan, total);
    }
    for (rack, total, card, raised) in raised_sums() {
        raises(both, &rack, total, card, raised);
    }
}

/// The answer's fields one too few and one too many: 1.
fn wrong_fields(both: &mut Both, plan: &[u8]) {
    let name = Name::ReadSummed;
    for fields in [3, 5] {
        let lengths = Lengths {
            fields,
            ..name.lengths()
        };
        let answer = both.call(Call::new(name), plan, lengths);
        if answer.number != 1 {
            stop(&format!("FAILED: opening with {fields} fields is not 1"));
        }
    }
}

/// Each call with each sum beside the right one; and with each of the sizes one off, beside the right sum and another.
fn numbers_beside(both: &mut Both, plan: &[u8], right: u32, else_number: impl Fn(Name) -> u32) {
    let own = sizes_in(plan);
    let totals = totals_beside(right);
    for name in CARRYING_SUMS.into_iter().chain(STEPS) {
        for sizes in sizes_beside(plan) {
            let totals = match sizes == own {
                true => &totals[..],
                false if name.carries_sizes() => &totals[..2],
                false => &[],
            };
            for &total in totals {
                let wrong = Wrong {
                    sizes: sizes != own,
                    total: total != right,
                    else_number: else_number(name),
                };
                carries(both, name, Opened { plan, sizes, total }, wrong);
            }
        }
    }
}

/// A card that the plan has not is 14 with the right sum, and another sum comes before it.
fn no_card(both: &mut Both, plan: &[u8], right: u32) {
    let sizes = sizes_in(plan);
    for name in NAMING_CARDS {
        for &total in &totals_beside(right)[..2] {
            let call = Call {
                sizes,
                total,
                from: sizes[0],
                ..Call::new(name)
            };
            let number = if total == right { 14 } else { 13 };
            answers(both, call, plan, name.lengths(), number);
        }
    }
}

/// An output of another length is 1 before all else.
fn no_room(both: &mut Both, plan: &[u8], right: u32) {
    for name in CHANGES.into_iter().flatten() {
        for sizes in sizes_beside(plan) {
            for total in totals_beside(right) {
                let mut lengths = name.lengths();
                lengths.bytes -= 1;
                let call = Call {
                    sizes,
                    total,
                    ..Call::new(name)
                };
                answers(both, call, plan, lengths, 1);
            }
        }
    }
}

/// A call is refused with this number, beside zeros.
fn answers(both: &mut Both, call: Call, plan: &[u8], lengths: Lengths, number: u32) {
    let answer = both.call(call, plan, lengths);
    let fields = answer.lent.fields.items();
    if answer.number != number || fields.iter().any(|&field| field != 0) {
        stop(&format!(
            "FAILED: {call:?}: answered with {}, {fields:?}, not {number}: {plan:02x?}",
            answer.number
        ));
    }
}

/// A plan with another last bit is 13, and one cut short 12, whatever the sum is; neither is opened.
fn damaged(both: &mut Both, plan: &[u8], right: u32) {
    let sizes = sizes_in(plan);
    let mut other = plan.to_vec();
    let end = plan.len() - 1;
    other[end] ^= 1;
    let of_addresses = plan.len() > 6;
    let opening = Name::ReadSummed;
    let lengths = opening.lengths();
    answers(both, Call::new(opening), &plan[..end], lengths, 12);
    if of_addresses {
        answers(both, Call::new(opening), &other, lengths, 13);
    }
    for name in CARRYING_SUMS {
        for &total in &totals_beside(right)[..2] {
            let [cut, other] = [&plan[..end], &other].map(|plan| Opened { plan, sizes, total });
            let [is_12, is_13] = [12, 13].map(|else_number| Wrong {
                sizes: else_number == 12,
                total: false,
                else_number,
            });
            carries(both, name, cut, is_12);
            if of_addresses {
                carries(both, name, other, is_13);
            }
        }
    }
}

/// Adding gives the sum that is named, which is the old one, n and the card's hops; taking off gives the old one again.
fn raises(both: &mut Both, rack: &Rack, total: u32, card: usize, raised: u32) {
    let plan = &plan_of(rack);
    let old = Summed { plan, total };
    for [adding, taking_off] in CHANGES {
        let added = both.call(change(adding, old, card as u32), plan, adding.lengths());
        let new = new_plan(&added);
        let taken_off = both.call(change(taking_off, new, 0), new.plan, taking_off.lengths());
        let sums = [Some(new.total), raised_sum(old, card)];
        if sums != [Some(raised); 2] || new_plan(&taken_off) != old {
            stop(&format!(
                "FAILED: {adding:?} {card}: the sum {total} became {sums:?}, not {raised}, and then {}",
                new_plan(&taken_off).total
            ));
        }
        opens(both, "a rack with a card more", new.plan, Some(raised));
    }
}

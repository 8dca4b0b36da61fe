//! The cases that the rules name of walks with a caller: by numbers, by a frame, and on an opened plan.

use crate::drawn::MOST;
use crate::inner_both::{Both, Call, Name};
use crate::inner_lent::Lengths;
use crate::inner_named::plan_of;
use crate::racks::{chain, ring};
use crate::second::callers::{CALLERS, COUNTS};
use crate::second::MOST_CARDS;
use crate::stop;

const WALKS: [Name; 4] = [
    Name::WalkByCaller,
    Name::WalkLent,
    Name::WalkCarried,
    Name::OpenedWalk,
];

/// The order in which faults are tested.
const FAULTS: [u32; 6] = [1, 12, 19, 18, 14, 15];

/// Where the counts of all callers begin.
const FRAMES: usize = 0;
const HOPS: usize = CALLERS;
const TURNS: usize = 2 * CALLERS;

/// One of the walks, and a plan.
#[derive(Clone, Copy)]
struct On<'a> {
    name: Name,
    plan: &'a [u8],
}

/// A walk's cards, its caller and its record, and how many of a frame's bytes are lent.
#[derive(Clone, Copy)]
struct Walk {
    cards: [usize; 2],
    caller: u32,
    traffic: [u32; COUNTS],
    lent: usize,
}

/// From card 0 to card 2, which are two hops from each other in a ring of four, by caller 3, all counts other than each other.
fn two_hops() -> Walk {
    Walk {
        cards: [0, 2],
        caller: 3,
        traffic: std::array::from_fn(|at| 1_000 + at as u32),
        lent: 4,
    }
}

pub fn check(both: &mut Both) {
    let [mut ring, chain] = [ring(4), chain(MOST_CARDS)].map(|rack| plan_of(&rack));
    for name in WALKS {
        let on = On { name, plan: &ring };
        callers(both, on);
        limits(both, on);
        no_hops(both, on);
        full_others(both, on);
        longest(both, On { name, plan: &chain });
        let lengths = wrong_lengths(name);
        for lengths in lengths {
            refused_with(both, on, two_hops(), 1, lengths);
        }
        for faults in 0..1 << FAULTS.len() {
            let cards = [[4, 2], [0, 4], [4, 4]];
            for (cards, lengths) in cards.into_iter().zip(lengths) {
                faulty(both, on, faults, (cards, lengths));
            }
        }
    }
    let name = Name::WalkLent;
    frames(both, On { name, plan: &ring });
    // card 2 gets the address of card 0
    ring[24] = 0;
    for name in WALKS {
        stuck(both, On { name, plan: &ring });
    }
}

/// Callers 0 and 15 are counted, those over 15 are 18.
fn callers(both: &mut Both, on: On) {
    let beyond_a_byte: &[u32] = match on.name {
        Name::WalkLent => &[],
        _ => &[256, 1 << 31, MOST],
    };
    for &caller in [0, 15, 16, 17, 255].iter().chain(beyond_a_byte) {
        let walk = Walk {
            caller,
            ..two_hops()
        };
        match caller {
            0..=15 => arrives(both, on, walk, 2),
            _ => refused(both, on, walk, 18),
        }
    }
}

/// A caller's counts at their limits, and as far below that a walk of two hops fits.
fn limits(both: &mut Both, on: On) {
    for (at, count, number) in [
        (FRAMES, MOST, 15),
        (FRAMES, MOST - 1, 0),
        (HOPS, MOST, 15),
        (HOPS, MOST - 1, 15),
        (HOPS, MOST - 2, 0),
        (TURNS, MOST, 0),
        (TURNS, MOST - 1, 0),
    ] {
        let mut walk = two_hops();
        walk.traffic[at + walk.caller as usize] = count;
        match number {
            0 => arrives(both, on, walk, 2),
            number => refused(both, on, walk, number),
        }
    }
}

/// From a card to itself: one frame and no hop, so only a full frame count is 15.
fn no_hops(both: &mut Both, on: On) {
    let walk = Walk {
        cards: [1, 1],
        ..two_hops()
    };
    let caller = walk.caller as usize;
    let [mut full_hops, mut full_frames, mut full] = [walk; 3];
    full_hops.traffic[HOPS + caller] = MOST;
    full_frames.traffic[FRAMES + caller] = MOST;
    full.traffic = [MOST; COUNTS];
    arrives(both, on, full_hops, 0);
    refused(both, on, full_frames, 15);
    refused(both, on, full, 15);
}

/// All counts are full but the two that the walk raises, which it fills.
fn full_others(both: &mut Both, on: On) {
    for caller in [0, 7, 15] {
        let mut traffic = [MOST; COUNTS];
        traffic[FRAMES + caller] = MOST - 1;
        traffic[HOPS + caller] = MOST - 2;
        let walk = Walk {
            caller: caller as u32,
            traffic,
            ..two_hops()
        };
        arrives(both, on, walk, 2);
    }
}

/// Some of the faults at once: the first of them in the order of tests is answered. Wrong are the cards of 14 and the lengths of 1.
fn faulty(both: &mut Both, on: On, faults: u32, wrong: ([usize; 2], Lengths)) {
    let (wrong_cards, wrong_lengths) = wrong;
    let has = |number: u32| {
        let at = FAULTS.iter().position(|&fault| fault == number);
        at.is_some_and(|at| faults >> at & 1 == 1)
    };
    if has(19) && on.name != Name::WalkLent {
        return;
    }
    let sound = two_hops();
    let walk = Walk {
        cards: if has(14) { wrong_cards } else { sound.cards },
        caller: if has(18) { 16 } else { sound.caller },
        traffic: if has(15) {
            [MOST; COUNTS]
        } else {
            sound.traffic
        },
        lent: if has(19) { 2 } else { sound.lent },
    };
    let plan = &on.plan[usize::from(has(12))..];
    let lengths = if has(1) {
        wrong_lengths
    } else {
        on.name.lengths()
    };
    match FAULTS.into_iter().find(|&number| has(number)) {
        Some(number) => refused_with(both, On { plan, ..on }, walk, number, lengths),
        None => arrives(both, on, walk, 2),
    }
}

/// Each of what is lent one too short, then one too long, then none of it.
fn wrong_lengths(name: Name) -> [Lengths; 6] {
    let right = name.lengths();
    std::array::from_fn(|wrong| {
        let mut lengths = right;
        let length = match wrong % 2 {
            0 => &mut lengths.met,
            _ => &mut lengths.fields,
        };
        *length = [*length - 1, *length + 1, 0][wrong / 2];
        lengths
    })
}

/// The longest walk, which fills the hops of its caller, or would pass their limit by one.
fn longest(both: &mut Both, on: On) {
    let hops = MOST_CARDS as u32 - 1;
    let mut walk = Walk {
        cards: [0, MOST_CARDS - 1],
        ..two_hops()
    };
    let count = HOPS + walk.caller as usize;
    walk.traffic[count] = MOST - hops;
    arrives(both, on, walk, hops);
    walk.traffic[count] += 1;
    refused(both, on, walk, 15);
}

/// Stuck at once and after a hop: 0, with all counts full. The plan is not one that can be opened.
fn stuck(both: &mut Both, on: On) {
    for (cards, hops) in [([0, 2], 0), ([1, 2], 1)] {
        let walk = Walk {
            cards,
            traffic: [MOST; COUNTS],
            ..two_hops()
        };
        if on.name == Name::OpenedWalk {
            refused(both, on, walk, 12);
            continue;
        }
        let (number, fields, record) = make(both, on, walk, on.name.lengths());
        if (number, &fields[..2], record) != (0, &[0, hops], walk.traffic.to_vec()) {
            stop(&format!(
                "FAILED: {:?}, stuck: answered with {number}, {fields:?}",
                on.name
            ));
        }
    }
}

/// Frames of no to four bytes, and destinations out of range, some by their high byte alone.
fn frames(both: &mut Both, on: On) {
    for lent in 0..=4 {
        let walk = Walk { lent, ..two_hops() };
        match lent {
            3.. => arrives(both, on, walk, 2),
            _ => refused(both, on, walk, 19),
        }
    }
    for goal in [4, 5, 256, 258, 512, 65_535] {
        let walk = Walk {
            cards: [0, goal],
            ..two_hops()
        };
        refused(both, on, walk, 14);
    }
}

/// Makes a walk; the number, the answer's fields and the record. Behind what is lent of a frame stand the rest of its bytes.
fn make(both: &mut Both, on: On, walk: Walk, lengths: Lengths) -> (u32, Vec<u32>, Vec<u32>) {
    let [from, goal] = walk.cards;
    let bytes = [goal as u8, (goal >> 8) as u8, walk.caller as u8, 0xa5];
    let On { name, plan } = on;
    let sizes = [0, 2, 4].map(|at| u32::from(plan[at]) + 256 * u32::from(plan[at + 1]));
    let call = Call {
        sizes,
        from: from as u32,
        goal: goal as u32,
        caller: walk.caller,
        traffic: walk.traffic,
        frames: [&bytes[..walk.lent], &[]],
        ..Call::new(name)
    };
    let answer = both.call(call, plan, lengths);
    let lents = [&answer.lent.fields, &answer.lent.traffic];
    let [fields, record] = lents.map(|lent| lent.items().to_vec());
    (answer.number, fields, record)
}

/// It arrives with so many hops, and raises its caller's two counts and no other.
fn arrives(both: &mut Both, on: On, walk: Walk, hops: u32) {
    let mut after = walk.traffic;
    after[FRAMES + walk.caller as usize] += 1;
    after[HOPS + walk.caller as usize] += hops;
    let (number, fields, record) = make(both, on, walk, on.name.lengths());
    if (number, &fields[..2], &record[..]) != (0, &[1, hops], &after) {
        stop(&format!(
            "FAILED: {:?} by {}: answered with {number}, {fields:?}, {record:?}, not with {after:?} behind {hops} hops",
            on.name, walk.caller
        ));
    }
}

fn refused(both: &mut Both, on: On, walk: Walk, number: u32) {
    refused_with(both, on, walk, number, on.name.lengths());
}

/// Zeros, and all counts as they were; of 1 for the answer's own length the comparison says that nothing is touched.
fn refused_with(both: &mut Both, on: On, walk: Walk, number: u32, lengths: Lengths) {
    let (given, fields, record) = make(both, on, walk, lengths);
    let written = lengths.fields == on.name.lengths().fields;
    let kept = record == walk.traffic && (!written || fields == [0; 4]);
    if given != number || !kept {
        stop(&format!(
            "FAILED: {:?} by {}: answered with {given}, not {number}, {fields:?}",
            on.name, walk.caller
        ));
    }
}

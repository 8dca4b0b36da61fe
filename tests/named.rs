//! The cases that the rules name, with their answers byte by byte.

use crate::both::Both;
use crate::racks::{self, Rack};

/// Name, wiring file, returned number and plan file.
const PLANNED: [(&str, &str, u32, &str); 10] = [
    ("P1", "01 00 00 00", 0, "01 00 00 00 00 00"),
    ("P2", "02 00 00 00", 9 + 256, ""),
    (
        "P3",
        "02 00 02 00 00 00 01 00 01 00 00 00",
        0,
        "02 00 02 00 01 00 00 00 01 00 01 00 00 00 00 01",
    ),
    (
        "P3 with a third link",
        "02 00 03 00 00 00 01 00 00 00 01 00 00 00 01 00",
        8 + 2 * 256,
        "",
    ),
    (
        "P3 with a link of no card 2 behind it",
        "02 00 03 00 00 00 01 00 00 00 01 00 00 00 02 00",
        6 + 2 * 256,
        "",
    ),
    (
        "P4",
        "03 00 02 00 00 00 01 00 01 00 02 00",
        0,
        "03 00 02 00 02 00 00 00 01 00 01 00 02 00 00 01 03",
    ),
    ("P5", P5_WIRING, 0, P5_PLAN),
    (
        "P6",
        "06 00 06 00 00 00 01 00 02 00 03 00 04 00 05 00 01 00 02 00 03 00 04 00 05 00 00 00",
        0,
        "06 00 06 00 03 00 00 00 01 00 02 00 03 00 04 00 05 00 01 00 02 00 03 00 04 00 05 00 00 00 00 01 03 07 06 04",
    ),
    ("P7", "03 00 03 00 00 00 01 00 02 00 01 00 02 00 00 00", 10 + 256, ""),
    (
        "P8",
        "05 00 06 00 00 00 00 00 00 00 01 00 01 00 01 00 02 00 03 00 04 00 02 00 03 00 04 00",
        11,
        "",
    ),
];

const P5_WIRING: &str = "04 00 04 00 00 00 01 00 02 00 03 00 01 00 02 00 03 00 00 00";
pub const P5_PLAN: &str =
    "04 00 04 00 02 00 00 00 01 00 02 00 03 00 01 00 02 00 03 00 00 00 00 01 03 02";
pub const P10_PLAN: &str =
    "04 00 04 00 02 00 00 00 01 00 02 00 03 00 01 00 02 00 03 00 00 00 00 01 00 02";

pub fn check(both: &mut Both) {
    for (name, wiring, code, plan) in PLANNED {
        planned(both, name, &bytes(wiring), code, &bytes(plan));
    }
    walked(
        both,
        "P9",
        &bytes(P5_PLAN),
        [0, 2],
        &[0, 1, 2],
        [1, 2, 8, 11],
    );
    let p10 = bytes(P10_PLAN);
    let read = both.read_plan(&p10);
    both.expect(read.code == 13, "P10: reading is not 13", &p10, &read);
    walked(both, "P10", &p10, [0, 2], &[0], [0, 0, 7, 9]);
    chains(both);
    twins(both);
    let wiring = racks::chain(257).bytes();
    planned(both, "257 cards", &wiring, 3, &[]);
    let mut rack = racks::cube(8);
    rack.links.resize(2_049, (0, 255));
    planned(both, "2,049 links", &rack.bytes(), 4, &[]);
}

pub fn bytes(hex: &str) -> Vec<u8> {
    let byte = |pair| u8::from_str_radix(pair, 16).expect("a pair of hexadecimal digits");
    hex.split_whitespace().map(byte).collect()
}

fn planned(both: &mut Both, name: &str, wiring: &[u8], code: u32, plan: &[u8]) {
    let answer = both.write_plan(wiring);
    let (used, rest) = answer.result().split_at(plan.len());
    let right = answer.code == code
        && answer.record() == [plan.len() as u32, 0, 0, 0]
        && used == plan
        && rest.iter().all(|&byte| byte == 0);
    both.expect(
        right,
        &format!("{name}: not the answer that the rules name"),
        wiring,
        &answer,
    );
    if code == 0 {
        let read = both.read_plan(plan);
        both.expect(
            read.code == 0,
            &format!("{name}: its plan is not read"),
            plan,
            &read,
        );
    }
}

/// A walk of caller 0, with counts 7 and 9 on entry.
fn walked(
    both: &mut Both,
    name: &str,
    plan: &[u8],
    ends: [u32; 2],
    met: &[usize],
    record: [u32; 4],
) {
    let answer = both.walk(plan, ends, 0, [7, 9]);
    let behind = &answer.result()[2 * met.len()..];
    let right = answer.code == 0
        && answer.met() == met
        && answer.record() == record
        && behind.iter().all(|&byte| byte == 0);
    both.expect(
        right,
        &format!("{name}: not the walk that the rules name"),
        plan,
        &answer,
    );
}

/// The lengths are those at which a byte or a word more of an address is used, and the longest; the longest with each link doubled too.
fn chains(both: &mut Both) {
    for cards in [8, 9, 10, 64, 65, 66, 128, 129, 130, 256] {
        chain(both, &format!("chain of {cards} cards"), &racks::chain(cards));
    }
    let doubled = racks::chain(256).twice();
    chain(both, "chain of 256 cards, each link doubled", &doubled);
}

/// Card c has ones in the first c columns, and is the c-th met from end to end.
fn chain(both: &mut Both, name: &str, rack: &Rack) {
    let cards = rack.cards;
    let columns = cards - 1;
    let wiring = rack.bytes();
    let mut plan = wiring.clone();
    plan.splice(4..4, [columns as u8, 0]);
    for card in 0..cards {
        let byte = |at: usize| {
            (0..8)
                .filter(|bit| 8 * at + bit < card)
                .map(|bit| 1 << bit)
                .sum::<u8>()
        };
        plan.extend((0..columns.div_ceil(8)).map(byte));
    }
    planned(both, name, &wiring, 0, &plan);
    let all: Vec<usize> = (0..cards).collect();
    let last = columns as u32;
    walked(both, name, &plan, [0, last], &all, [1, last, 8, 9 + last]);
}

/// Each link doubled: the 8-cube, the largest rack that is accepted, whose card c has the bits of c from the highest down; two by three;
/// and a ring of five, whose level link comes third, or first where its twin does.
fn twins(both: &mut Both) {
    let cube = racks::cube(8).twice();
    let mut plan = cube.bytes();
    plan.splice(4..4, [8, 0]);
    plan.extend((0..=255).map(u8::reverse_bits));
    planned(both, "8-cube, each link doubled", &cube.bytes(), 0, &plan);

    let two_by_three = racks::complete(2, 3).twice();
    planned(both, "two by three, doubled", &two_by_three.bytes(), 11, &[]);

    let mut ring = racks::ring(5).twice();
    planned(both, "ring of five, doubled", &ring.bytes(), 10 + 2 * 256, &[]);
    ring.links.rotate_left(7);
    planned(both, "its level link's twin first", &ring.bytes(), 10, &[]);
}

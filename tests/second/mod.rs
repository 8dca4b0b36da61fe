//! A second implementation of planning, plan reading, walking, columns, callers and their turns, conference cards, sums of hops and a card
//! more or less, written from the rules alone. The tests compare it with the calls, and the benchmark times it beside those for C.

pub mod callers;
pub mod columns;
pub mod conference;
pub mod last_card;
pub mod listing;
pub mod planner;
pub mod plans;
pub mod totals;

use plans::{Layout, Walk};

pub const PLAN_BYTES: usize = 16_390;
pub const MET_BYTES: usize = 512;
pub const RECORD_BYTES: usize = 16;

pub const MOST_CARDS: usize = 256;
pub const CALLERS: u32 = 16;
pub const MOST_LINKS: usize = 2_048;
/// How many links may join the same two cards.
pub const MOST_PARALLEL: usize = 2;
const MOST_COLUMNS: usize = 255;

/// One bit for each card of a column, or for each column of an address.
pub type Bits = [u64; 4];

/// Why a file or call is turned back, and the link or card in fault (0 for none).
#[derive(Clone)]
pub struct Refusal {
    pub number: u32,
    pub at: usize,
}

impl Refusal {
    pub fn code(&self) -> u32 {
        self.number + 256 * self.at as u32
    }
}

fn refuse<T>(number: u32) -> Result<T, Refusal> {
    refuse_at(number, 0)
}

fn refuse_at<T>(number: u32, at: usize) -> Result<T, Refusal> {
    Err(Refusal { number, at })
}

fn number(bytes: &[u8]) -> usize {
    usize::from(u16::from_le_bytes([bytes[0], bytes[1]]))
}

fn ends<'a>(firsts: &'a [u8], seconds: &'a [u8]) -> impl Iterator<Item = (usize, usize)> + 'a {
    let pairs = firsts.chunks_exact(2).zip(seconds.chunks_exact(2));
    pairs.map(|(p, q)| (number(p), number(q)))
}

fn differing(x: &Bits, y: &Bits) -> u32 {
    x.iter().zip(y).map(|(x, y)| (x ^ y).count_ones()).sum()
}

fn put_record(record: &mut [u8], numbers: [u32; 4]) {
    for (place, number) in record.chunks_exact_mut(4).zip(numbers) {
        place.copy_from_slice(&number.to_le_bytes());
    }
}

/// The meaning of `jolvente_write_plan`.
pub fn write_plan(wiring: &[u8], plan: &mut [u8], record: &mut [u8]) -> u32 {
    if plan.len() != PLAN_BYTES || record.len() != RECORD_BYTES {
        return 1;
    }
    plan.fill(0);
    record.fill(0);
    match planner::plan(wiring) {
        Ok(planned) => {
            let bytes = planned.bytes();
            plan[..bytes.len()].copy_from_slice(&bytes);
            put_record(record, [bytes.len() as u32, 0, 0, 0]);
            0
        }
        Err(refusal) => refusal.code(),
    }
}

/// The meaning of `jolvente_read_plan`.
pub fn read_plan(plan: &[u8], record: &mut [u8]) -> u32 {
    if record.len() != RECORD_BYTES {
        return 1;
    }
    match Layout::read(plan) {
        Ok(read) => {
            let sizes = [read.cards, read.links, read.columns].map(|size| size as u32);
            put_record(record, [sizes[0], sizes[1], sizes[2], 0]);
            0
        }
        Err(refusal) => refusal.code(),
    }
}

/// The meaning of `jolvente_walk`. The counts in the record are the caller's.
pub fn walk(
    plan: &[u8],
    from: u32,
    to: u32,
    caller: u32,
    met: &mut [u8],
    record: &mut [u8],
) -> u32 {
    if met.len() != MET_BYTES || record.len() != RECORD_BYTES {
        return 1;
    }
    let layout = match Layout::new(plan) {
        Ok(layout) => layout,
        Err(refusal) => return refusal.code(),
    };
    if caller >= CALLERS {
        return 18;
    }
    let (from, to) = (from as usize, to as usize);
    if from >= layout.cards || to >= layout.cards {
        return 14;
    }
    let walk = layout.walk(from, to);
    let hops = walk.met.len() as u32 - 1;
    let Some((frames, total)) = counts_after(record, &walk, hops) else {
        return 15;
    };
    met.fill(0);
    for (place, &card) in met.chunks_exact_mut(2).zip(&walk.met) {
        place.copy_from_slice(&(card as u16).to_le_bytes());
    }
    put_record(record, [u32::from(walk.arrived), hops, frames, total]);
    0
}

/// The two counts after a walk, or none if one of them would pass its limit.
fn counts_after(record: &[u8], walk: &Walk, hops: u32) -> Option<(u32, u32)> {
    let count = |at: usize| {
        u32::from_le_bytes([record[at], record[at + 1], record[at + 2], record[at + 3]])
    };
    let (frames, total) = (count(8), count(12));
    if !walk.arrived {
        return Some((frames, total));
    }
    Some((frames.checked_add(1)?, total.checked_add(hops)?))
}

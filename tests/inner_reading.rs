//! What the calls that read a plan mean, by the second implementation; some of them test the sum that an opened plan carries.

use crate::inner_both::{Call, Name};
use crate::inner_lent::Lents;
use crate::inner_second::put;
use crate::second::conference::Ways;
use crate::second::last_card::Changer;
use crate::second::plans::Layout;
use crate::second::totals::{read_summed, Summed};
use crate::second::Refusal;

/// The last plan that was read and the last one that had conferences, since many calls are made on one plan; and what changes plans.
#[derive(Default)]
pub struct Known {
    read: Option<(Vec<u8>, Result<Summed, Refusal>)>,
    ways: Option<(Vec<u8>, Ways)>,
    changer: Changer,
}

impl Known {
    /// 12, 13, also for another sum than the plan's where the call carries one.
    fn read(&mut self, call: &Call, plan: &[u8]) -> Result<Summed, Refusal> {
        let read = match self.read.take() {
            Some((last, read)) if last == plan => read,
            _ => read_summed(plan),
        };
        let (_, read) = self.read.insert((plan.to_vec(), read));
        let read = read.clone()?;
        if call.name.carries_sum() {
            read.with_total(call.total)
        } else {
            Ok(read)
        }
    }

    /// The ways of a plan that was read.
    fn ways(&mut self, plan: &[u8]) -> Result<&Ways, Refusal> {
        let ways = match self.ways.take() {
            Some((last, ways)) if last == plan => ways,
            _ => Ways::new(&Layout::new(plan)?.wiring()),
        };
        let (_, ways) = self.ways.insert((plan.to_vec(), ways));
        Ok(ways)
    }
}

/// The three sizes and, where there is a field for it, the sum.
pub fn read(known: &mut Known, call: &Call, plan: &[u8], lent: &mut Lents) -> u32 {
    put(lent, &[0; 4]);
    match known.read(call, plan) {
        Ok(read) => {
            let total = read.total as usize;
            put(lent, &[read.cards, read.links, read.columns, total]);
            0
        }
        Err(refusal) => refusal.number,
    }
}

/// With a refusal the part is empty, at the plan's first byte.
pub fn address(known: &mut Known, call: &Call, plan: &[u8], lent: &mut Lents) -> u32 {
    lent.part = Some((0, 0));
    let plan = match known.read(call, plan) {
        Ok(plan) => plan,
        Err(refusal) => return refusal.number,
    };
    let card = call.from as usize;
    if card >= plan.cards {
        return 14;
    }
    let size = plan.columns.div_ceil(8);
    lent.part = Some((6 + 4 * plan.links + card * size, size));
    0
}

/// 12, 13, 14 of any of the three; then 1 and the card, or 0 and 0 for none.
pub fn conference(known: &mut Known, call: &Call, plan: &[u8], lent: &mut Lents) -> u32 {
    put(lent, &[0, 0]);
    let read = known.read(call, plan);
    let ways = match read.and_then(|_| known.ways(plan)) {
        Ok(ways) => ways,
        Err(refusal) => return refusal.number,
    };
    let three = [call.from, call.goal, call.third].map(|card| card as usize);
    if three.iter().any(|&card| card >= ways.cards()) {
        return 14;
    }
    match ways.conference(three)[..] {
        [] => {}
        [card] => put(lent, &[1, card]),
        _ => panic!("{three:?} have two conference cards"),
    }
    0
}

/// The new plan with zeros behind it, its length and its sum. With a refusal the bytes stay as they were.
pub fn new_plan(known: &mut Known, call: &Call, plan: &[u8], lent: &mut Lents) -> u32 {
    put(lent, &[0, 0]);
    let output = lent.bytes.items_mut();
    if output.len() != call.name.lengths().bytes {
        return 1;
    }
    let (total, changer) = (call.total, &mut known.changer);
    let new = match call.name {
        Name::AddCard | Name::AddCarried => changer.add_card(plan, total, call.from as usize),
        _ => changer.take_card_off(plan, total),
    };
    match new {
        Ok(new) => {
            output.fill(0);
            output[..new.file.len()].copy_from_slice(&new.file);
            put(lent, &[new.file.len(), new.total as usize]);
            0
        }
        Err(refusal) => refusal.number,
    }
}

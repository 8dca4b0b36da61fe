//! A rack and the same rack with links doubled, planned by the C calls: the same number, and the same addresses but for the order of the
//! columns.

use crate::both::{Answer, Both};
use crate::properties;
use crate::racks::twins::Doubled;
use crate::racks::Rack;

/// How often a doubled rack was planned as the plain one is: with columns in the same order, with columns in another order, and refused with
/// 9, 10 and 11.
#[derive(Default)]
pub struct Twins {
    kept: u64,
    moved: u64,
    refused: [u64; 3],
}

impl Twins {
    /// Plans both racks, and holds the answer for the doubled one to that for the plain one.
    pub fn compare(&mut self, both: &mut Both, plain: &Rack, doubled: &Doubled) {
        let [before, after] = [plain, &doubled.rack].map(|rack| both.write_plan(&rack.bytes()));
        let right = match before.number() {
            0 => after.code == 0 && self.same_addresses(plain, doubled, &before, &after),
            number => {
                self.refused[number as usize - 9] += 1;
                after.code == refusal(plain, doubled, before.code)
            }
        };
        let wiring = doubled.rack.bytes();
        both.expect(right, "not the answer without twins", &wiring, &after);
    }

    /// Each column of the doubled rack is that of the plain one which its lowest link has.
    fn same_addresses(
        &mut self,
        plain: &Rack,
        doubled: &Doubled,
        before: &Answer,
        after: &Answer,
    ) -> bool {
        let [before, after] =
            [(plain, before), (&doubled.rack, after)].map(|(rack, answer)| columns(rack, answer));
        let column_of = |&(p, q): &(usize, usize)| before.iter().position(|bits| bits[p] != bits[q]);
        let Some(columns) = plain.links.iter().map(column_of).collect::<Option<Vec<_>>>() else {
            return false;
        };
        let order = doubled.column_order(&columns);
        let count = match order.is_sorted() {
            true => &mut self.kept,
            false => &mut self.moved,
        };
        *count += 1;
        let moved: Vec<_> = order.iter().map(|&column| &before[column]).collect();
        moved.into_iter().eq(&after)
    }

    pub fn report(&self) {
        let Twins {
            kept,
            moved,
            refused: [nine, ten, eleven],
        } = self;
        println!(
            "racks doubled: {kept} with the same addresses, {moved} with columns in another order; refused as without twins, \
             9: {nine}, 10: {ten}, 11: {eleven}"
        );
    }

    /// Each of these was met.
    pub fn complete(&self) -> bool {
        self.kept > 0 && self.moved > 0 && !self.refused.contains(&0)
    }
}

/// The refusal of the doubled rack: 9 and 11 as the plain rack's, 10 at the lowest link whose ends have equal hops in the plain rack.
fn refusal(plain: &Rack, doubled: &Doubled, code: u32) -> u32 {
    if code % 256 != 10 {
        return code;
    }
    let home = &properties::hops(plain)[0];
    let level = |&(p, q): &(usize, usize)| home[p] == home[q];
    let link = doubled.rack.links.iter().position(level);
    10 + 256 * link.expect("a link whose ends have equal hops") as u32
}

/// The columns of a plan that was written, each with its bit for each card.
fn columns(rack: &Rack, answer: &Answer) -> Vec<Vec<bool>> {
    let plan = answer.result();
    let count = usize::from(plan[4]);
    let addresses = &plan[6 + 4 * rack.links.len()..];
    let width = count.div_ceil(8);
    let bit = |card: usize, j: usize| addresses[card * width + j / 8] >> (j % 8) & 1 == 1;
    let column = |j: usize| (0..rack.cards).map(|card| bit(card, j)).collect();
    (0..count).map(column).collect()
}

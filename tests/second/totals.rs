//! The sum of hops over all pairs of different cards, added up pair by pair, and plans that are read with it.

use super::planner::{all_hops, hops_from, neighbours, read_wiring, Wiring};
use super::plans::Layout;
use super::{refuse, Refusal};

/// The sizes of a plan that was read, and its sum of hops.
#[derive(Clone, Copy)]
pub struct Summed {
    pub cards: usize,
    pub links: usize,
    pub columns: usize,
    pub total: u32,
}

/// From the rows of hops of all cards: each pair once, as of the later card and the earlier one.
pub fn total(hops: &[Vec<u16>]) -> u32 {
    let mut total = 0;
    for (later, row) in hops.iter().enumerate() {
        for &pair in &row[..later] {
            total += u32::from(pair);
        }
    }
    total
}

/// The hops from one card to all cards.
pub fn hops_to_all(wiring: &Wiring, card: usize) -> u32 {
    let hops = hops_from(card, &neighbours(wiring));
    hops.into_iter().map(u32::from).sum()
}

/// Reads a plan as opening does: 12, 13.
pub fn read_summed(file: &[u8]) -> Result<Summed, Refusal> {
    let plan = Layout::read(file)?;
    Ok(Summed {
        cards: plan.cards,
        links: plan.links,
        columns: plan.columns,
        total: total(&all_hops(&plan.wiring())?),
    })
}

impl Summed {
    /// The same where that is the sum; another one is 13.
    pub fn with_total(self, total: u32) -> Result<Summed, Refusal> {
        if self.total == total {
            Ok(self)
        } else {
            refuse(13)
        }
    }
}

/// The sum of the wiring inside a plan file, whatever its addresses are, where that is connected and has no odd loop.
pub fn total_inside(file: &[u8]) -> Option<u32> {
    let plan = Layout::new(file).ok()?;
    let wiring = read_wiring(&[&file[..4], plan.firsts, plan.seconds].concat()).ok()?;
    Some(total(&all_hops(&wiring).ok()?))
}

/// What the columns of a plan give, added up: in each the cards with a one times those with a zero.
pub fn total_of_columns(file: &[u8]) -> u32 {
    let Ok(plan) = Layout::new(file) else {
        return 0;
    };
    let width = plan.columns.div_ceil(8);
    let bit = |card: usize, j: usize| plan.addresses[card * width + j / 8] >> (j % 8) & 1;
    let ones = |j: usize| (0..plan.cards).filter(|&card| bit(card, j) == 1).count();
    let products = (0..plan.columns).map(|j| ones(j) * (plan.cards - ones(j)));
    products.sum::<usize>() as u32
}

//! A card more at the end of a wiring, and the last card taken off: the wiring is changed, planned anew and summed up anew.

use super::planner::{all_hops, plan, wiring_file, Wiring};
use super::plans::Layout;
use super::totals::total;
use super::{refuse, Refusal, MOST_CARDS, MOST_LINKS};

/// A plan file and its sum of hops.
#[derive(Clone)]
pub struct SummedPlan {
    pub file: Vec<u8>,
    pub total: u32,
}

/// Changes plans. It remembers what it planned last, since many cards are hung on one rack, and each is taken off again.
#[derive(Default)]
pub struct Changer {
    planned: Vec<(Vec<u8>, Result<SummedPlan, Refusal>)>,
}

/// How many wirings are remembered: the rack itself, and the changed one with its last link drawn either way.
const REMEMBERED: usize = 3;

impl Changer {
    /// The plan with a new last card, or 12, 13, 14, 16.
    pub fn add_card(
        &mut self,
        file: &[u8],
        total: u32,
        card: usize,
    ) -> Result<SummedPlan, Refusal> {
        let longer = with_card(&self.read(file, total)?, card)?;
        self.plan(&longer)
    }

    /// The plan without its last card, or 12, 13, 17.
    pub fn take_card_off(&mut self, file: &[u8], total: u32) -> Result<SummedPlan, Refusal> {
        match without_last_card(&self.read(file, total)?) {
            Some(shorter) => self.plan(&shorter),
            None => refuse(17),
        }
    }

    /// The wiring inside a plan file that the planner wrote and that has this sum, or 12 or 13.
    fn read(&mut self, file: &[u8], total: u32) -> Result<Wiring, Refusal> {
        let wiring = Layout::new(file)?.wiring();
        match self.plan(&wiring) {
            Ok(plan) if plan.file == file && plan.total == total => Ok(wiring),
            _ => refuse(13),
        }
    }

    fn plan(&mut self, wiring: &Wiring) -> Result<SummedPlan, Refusal> {
        let file = wiring_file(wiring.cards, &wiring.links);
        let known = self.planned.iter().position(|(last, _)| *last == file);
        let planned = match known {
            Some(at) => self.planned.remove(at).1,
            None => summed_plan(&file),
        };
        self.planned.truncate(REMEMBERED - 1);
        self.planned.insert(0, (file, planned.clone()));
        planned
    }
}

/// Plans a wiring file and sums its hops up.
pub fn summed_plan(file: &[u8]) -> Result<SummedPlan, Refusal> {
    let plan = plan(file)?;
    Ok(SummedPlan {
        file: plan.bytes(),
        total: total(&all_hops(&plan.wiring)?),
    })
}

/// The new card has the next number and hangs on a new last link, which leads from the given card to it.
fn with_card(wiring: &Wiring, card: usize) -> Result<Wiring, Refusal> {
    let new = wiring.cards;
    if card >= new {
        return refuse(14);
    }
    if new == MOST_CARDS || wiring.links.len() == MOST_LINKS {
        return refuse(16);
    }
    let links = [&wiring.links[..], &[(card, new)]].concat();
    Ok(Wiring {
        cards: new + 1,
        links,
    })
}

/// The last card goes with all of its links. It may if what is left are all links but the last.
fn without_last_card(wiring: &Wiring) -> Option<Wiring> {
    let last = wiring.cards - 1;
    let left = wiring
        .links
        .iter()
        .filter(|&&(p, q)| p != last && q != last);
    let links: Vec<_> = left.copied().collect();
    let (_, all_but_last) = wiring.links.split_last()?;
    (links == all_but_last).then_some(Wiring { cards: last, links })
}

//! Racks of 255 cards that get one more, which is taken off again: what bench/last_cards.rs times and tests/cost.rs counts.

use crate::last_card::{add_card, take_card_off, Changed};
use crate::racks::{self, Rack, Rng};
use crate::second::last_card::{summed_plan, SummedPlan};
use crate::second::{MOST_CARDS, PLAN_BYTES};

const SEED: u64 = 7;
/// One card more is the most that a rack has.
const CARDS: usize = MOST_CARDS - 1;

pub type Output = [u8; PLAN_BYTES];

/// The plans of a rack and of the same with one more card, with their sums of hops, and the card on which that hangs.
pub struct Growing {
    pub name: &'static str,
    pub less: SummedPlan,
    pub more: SummedPlan,
    card: usize,
}

impl Growing {
    pub fn add(&self, output: &mut Output) -> Changed {
        add_card(&self.less.file, self.less.total, self.card as u32, output)
    }

    pub fn take_off(&self, output: &mut Output) -> Changed {
        take_card_off(&self.more.file, self.more.total, output)
    }
}

/// Adding on the card behind the last is refused with 14: it reads the plan, tests its sum and does no more.
pub fn refused(plan: &SummedPlan, output: &mut Output) -> Changed {
    let cards = u16::from_le_bytes([plan.file[0], plan.file[1]]);
    add_card(&plan.file, plan.total, u32::from(cards), output)
}

/// The new plan is that, with its length and its sum.
pub fn check(name: &str, (number, answer): Changed, output: &Output, new: &SummedPlan) {
    let length = new.file.len();
    assert_eq!((number, answer), (0, [length as u32, new.total]), "{name}");
    assert_eq!(output[..length], new.file, "{name}");
}

/// As many linked pairs as a rack of 255 cards can have, and with twins as many links.
fn cube_less_a_card() -> Rack {
    let mut rack = racks::cube(8);
    rack.cards = CARDS;
    rack.links.retain(|&(p, q)| p < CARDS && q < CARDS);
    rack
}

/// Cards are numbered and links ordered at random, and so is the card drawn that gets the new one.
pub fn racks_of_255() -> Vec<Growing> {
    let rng = &mut Rng::new(SEED);
    let tree = racks::tree(rng, CARDS);
    let all = [
        ("chain of 255", racks::chain(CARDS)),
        ("star of 255", racks::star(CARDS)),
        ("random tree of 255", tree),
        ("tail of 127 on a 7-cube", racks::cube(7).with_tail(127)),
        ("grid of 15 x 17", racks::grid(15, 17)),
        ("8-cube less a card", cube_less_a_card()),
        ("8-cube less a card, doubled", cube_less_a_card().twice()),
    ];
    all.map(|(name, rack)| growing(name, rack.shuffled(rng), rng.below(CARDS)))
        .into()
}

fn growing(name: &'static str, rack: Rack, card: usize) -> Growing {
    let mut grown = rack.clone();
    grown.links.push((card, rack.cards));
    grown.cards += 1;
    let [less, more] = [rack, grown].map(|rack| match summed_plan(&rack.bytes()) {
        Ok(planned) => planned,
        Err(_) => panic!("{name} is refused"),
    });
    Growing {
        name,
        less,
        more,
        card,
    }
}

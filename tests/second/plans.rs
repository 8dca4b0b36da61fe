//! Plan files, steps and walks.

use super::planner::{plan, Wiring};
use super::{differing, ends, number, refuse, Bits, Refusal};
use super::{MOST_CARDS, MOST_COLUMNS, MOST_LINKS};

/// A plan file whose sizes fit its length.
pub struct Layout<'a> {
    pub cards: usize,
    pub links: usize,
    pub columns: usize,
    pub firsts: &'a [u8],
    pub seconds: &'a [u8],
    pub addresses: &'a [u8],
}

pub enum Step {
    Arrived,
    Onward(usize),
    Stuck,
}

pub struct Walk {
    pub met: Vec<usize>,
    pub arrived: bool,
}

impl<'a> Layout<'a> {
    /// Takes a plan file apart, or refuses with 12.
    pub fn new(file: &'a [u8]) -> Result<Layout<'a>, Refusal> {
        if file.len() < 6 {
            return refuse(12);
        }
        let (cards, links, columns) = (number(&file[0..]), number(&file[2..]), number(&file[4..]));
        let in_range =
            (1..=MOST_CARDS).contains(&cards) && links <= MOST_LINKS && columns <= MOST_COLUMNS;
        if !in_range || file.len() != 6 + 4 * links + cards * columns.div_ceil(8) {
            return refuse(12);
        }
        let (firsts, rest) = file[6..].split_at(2 * links);
        let (seconds, addresses) = rest.split_at(2 * links);
        Ok(Layout {
            cards,
            links,
            columns,
            firsts,
            seconds,
            addresses,
        })
    }

    /// Reads a plan file that the planner wrote, or refuses with 12 or 13.
    pub fn read(file: &'a [u8]) -> Result<Layout<'a>, Refusal> {
        let layout = Layout::new(file)?;
        let wiring = [&file[..4], layout.firsts, layout.seconds].concat();
        match plan(&wiring) {
            Ok(plan) if plan.bytes() == file => Ok(layout),
            _ => refuse(13),
        }
    }

    /// The wiring inside.
    pub fn wiring(&self) -> Wiring {
        Wiring {
            cards: self.cards,
            links: ends(self.firsts, self.seconds).collect(),
        }
    }

    /// A card's address without the bits behind the last column.
    pub fn address(&self, card: usize) -> Bits {
        let width = self.columns.div_ceil(8);
        let mut bytes = [0; 32];
        bytes[..width].copy_from_slice(&self.addresses[card * width..][..width]);
        let used_bits = self.columns % 8;
        if used_bits > 0 {
            bytes[width - 1] &= (1 << used_bits) - 1;
        }
        let mut bits = Bits::default();
        for (word, chunk) in bits.iter_mut().zip(bytes.chunks_exact(8)) {
            *word = u64::from_le_bytes(chunk.try_into().expect("chunks have 8 bytes"));
        }
        bits
    }

    /// The first link of a card, rising, whose far card is nearer to the goal.
    pub fn step(&self, at: usize, to: usize) -> Step {
        if at == to {
            return Step::Arrived;
        }
        let goal = self.address(to);
        let own = differing(&self.address(at), &goal);
        let far_cards =
            ends(self.firsts, self.seconds).filter_map(|(p, q)| match (p == at, q == at) {
                (true, _) => Some(q),
                (_, true) => Some(p),
                _ => None,
            });
        let mut cards = far_cards.filter(|&far| far < self.cards);
        match cards.find(|&far| differing(&self.address(far), &goal) < own) {
            Some(far) => Step::Onward(far),
            None => Step::Stuck,
        }
    }

    /// Steps until arrived or stuck.
    pub fn walk(&self, from: usize, to: usize) -> Walk {
        let mut met = vec![from];
        let mut at = from;
        loop {
            match self.step(at, to) {
                Step::Arrived => return Walk { met, arrived: true },
                Step::Stuck => {
                    return Walk {
                        met,
                        arrived: false,
                    }
                }
                Step::Onward(far) => {
                    met.push(far);
                    at = far;
                }
            }
        }
    }
}

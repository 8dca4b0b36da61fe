//! Racks of many shapes, some of them made from seeded random numbers.

pub mod kinds;
mod random;
mod shapes;
pub mod twins;

use crate::second::planner::wiring_file;
pub use random::Rng;
pub use shapes::{chain, complete, cube, grid, product, ring, star, tree, two_sides};

/// Cards and the two ends of each link.
#[derive(Clone)]
pub struct Rack {
    pub cards: usize,
    pub links: Vec<(usize, usize)>,
}

impl Rack {
    /// The rack of a sound wiring file.
    pub fn of(wiring: &[u8]) -> Rack {
        let number =
            |at: usize| usize::from(u16::from_le_bytes([wiring[2 * at], wiring[2 * at + 1]]));
        let [cards, links] = [number(0), number(1)];
        let ends = |link| (number(2 + link), number(2 + links + link));
        let links = (0..links).map(ends).collect();
        Rack { cards, links }
    }

    /// The wiring file.
    pub fn bytes(&self) -> Vec<u8> {
        wiring_file(self.cards, &self.links)
    }

    /// The same rack with its cards renumbered and its links in another order, some turned round.
    pub fn shuffled(self, rng: &mut Rng) -> Rack {
        let mut rack = self.renumbered(rng);
        rng.shuffle(&mut rack.links);
        rack
    }

    /// The same rack with its cards renumbered and some links turned round, each at its place.
    pub fn renumbered(mut self, rng: &mut Rng) -> Rack {
        let mut names: Vec<usize> = (0..self.cards).collect();
        rng.shuffle(&mut names);
        for (p, q) in &mut self.links {
            (*p, *q) = (names[*p], names[*q]);
            if rng.below(2) == 0 {
                std::mem::swap(p, q);
            }
        }
        self
    }

    fn with_link(mut self, p: usize, q: usize) -> Rack {
        self.links.push((p, q));
        self
    }

    fn without_some_link(mut self, rng: &mut Rng) -> Rack {
        let link = rng.below(self.links.len());
        self.links.remove(link);
        self
    }

    /// New cards, each hung on some card that is there already.
    fn with_spurs(mut self, rng: &mut Rng, count: usize) -> Rack {
        for _ in 0..count {
            self.links.push((rng.below(self.cards), self.cards));
            self.cards += 1;
        }
        self
    }

    /// A chain of new cards hung on card 0.
    pub fn with_tail(mut self, count: usize) -> Rack {
        let mut end = 0;
        for _ in 0..count {
            self.links.push((end, self.cards));
            end = self.cards;
            self.cards += 1;
        }
        self
    }

    /// Another rack beside this one, without a link between them.
    fn beside(mut self, other: Rack) -> Rack {
        let moved = other
            .links
            .iter()
            .map(|&(p, q)| (p + self.cards, q + self.cards));
        self.links.extend(moved);
        self.cards += other.cards;
        self
    }
}

//! Racks with links doubled: twin cables.

use super::{Rack, Rng};
use crate::second::MOST_LINKS;

/// A rack with some links doubled, and for each of its links the one of the plain rack that it is, or is a twin of.
pub struct Doubled {
    pub rack: Rack,
    pub plain: Vec<usize>,
}

impl Rack {
    /// How many links join two cards, drawn either way.
    pub fn joining(&self, p: usize, q: usize) -> usize {
        let links = self.links.iter();
        links
            .filter(|&&link| link == (p, q) || link == (q, p))
            .count()
    }

    /// One link in three doubled, its twin at any place and drawn either way, while there is room.
    pub fn doubled(&self, rng: &mut Rng) -> Doubled {
        let mut links: Vec<_> = self.links.iter().copied().enumerate().collect();
        for (link, &(p, q)) in self.links.iter().enumerate() {
            if rng.below(3) == 0 && links.len() < MOST_LINKS {
                let at = rng.between(0, links.len());
                links.insert(at, (link, rng.pick(&[(p, q), (q, p)])));
            }
        }
        let (plain, links) = links.into_iter().unzip();
        let rack = Rack {
            cards: self.cards,
            links,
        };
        Doubled { rack, plain }
    }

    /// Each link doubled: the twins stand behind all others, in their order, each drawn the other way.
    pub fn twice(&self) -> Rack {
        let twins = self.links.iter().map(|&(p, q)| (q, p));
        Rack {
            cards: self.cards,
            links: self.links.iter().copied().chain(twins).collect(),
        }
    }
}

impl Doubled {
    /// The columns of the plain rack in the order in which the doubled rack has them, that of their lowest links, from the column of each
    /// plain link.
    pub fn column_order(&self, plain_columns: &[usize]) -> Vec<usize> {
        let mut order = Vec::new();
        for &link in &self.plain {
            let column = plain_columns[link];
            if !order.contains(&column) {
                order.push(column);
            }
        }
        order
    }
}

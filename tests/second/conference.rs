//! Conference cards: on a shortest way between each two of three cards.

use super::planner::{hops_from, neighbours, Wiring};

/// A connected rack, and the hops from each card to each.
pub struct Ways {
    neighbours: Vec<Vec<usize>>,
    hops: Vec<Vec<u16>>,
}

impl Ways {
    pub fn new(wiring: &Wiring) -> Ways {
        let neighbours = neighbours(wiring);
        let hops = (0..wiring.cards)
            .map(|card| hops_from(card, &neighbours))
            .collect();
        Ways { neighbours, hops }
    }

    pub fn cards(&self) -> usize {
        self.neighbours.len()
    }

    /// The cards on shortest ways from a to b, found by going back: b, and of each such card the neighbours that are a
    /// hop nearer to a.
    fn between(&self, a: usize, b: usize) -> Vec<bool> {
        let hops = &self.hops[a];
        let mut on_way = vec![false; self.cards()];
        on_way[b] = true;
        let mut cards = vec![b];
        while let Some(card) = cards.pop() {
            for &near in &self.neighbours[card] {
                if hops[near] < hops[card] && !on_way[near] {
                    on_way[near] = true;
                    cards.push(near);
                }
            }
        }
        on_way
    }

    /// All cards on a shortest way between each two of the three.
    pub fn conference(&self, [a, b, c]: [usize; 3]) -> Vec<usize> {
        let ways = [self.between(a, b), self.between(a, c), self.between(b, c)];
        (0..self.cards())
            .filter(|&card| ways.iter().all(|way| way[card]))
            .collect()
    }
}

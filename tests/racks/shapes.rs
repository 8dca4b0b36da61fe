//! Shapes of racks, of any size.

use super::{Rack, Rng};

pub fn chain(cards: usize) -> Rack {
    let links = (1..cards).map(|card| (card - 1, card)).collect();
    Rack { cards, links }
}

pub fn ring(cards: usize) -> Rack {
    chain(cards).with_link(cards - 1, 0)
}

pub fn star(cards: usize) -> Rack {
    let links = (1..cards).map(|card| (0, card)).collect();
    Rack { cards, links }
}

pub fn tree(rng: &mut Rng, cards: usize) -> Rack {
    chain(1).with_spurs(rng, cards - 1)
}

/// Every pair of a card of one rack and a card of the other; a link changes one of the two.
pub fn product(x: &Rack, y: &Rack) -> Rack {
    let mut links = Vec::new();
    for &(p, q) in &x.links {
        links.extend((0..y.cards).map(|card| (p * y.cards + card, q * y.cards + card)));
    }
    for &(p, q) in &y.links {
        links.extend((0..x.cards).map(|card| (card * y.cards + p, card * y.cards + q)));
    }
    Rack {
        cards: x.cards * y.cards,
        links,
    }
}

pub fn grid(width: usize, height: usize) -> Rack {
    product(&chain(width), &chain(height))
}

pub fn cube(dimensions: usize) -> Rack {
    (0..dimensions).fold(chain(1), |cube, _| product(&cube, &chain(2)))
}

/// Every card of one side linked to every card of the other.
pub fn complete(left: usize, right: usize) -> Rack {
    let links = (0..left * right)
        .map(|pair| (pair / right, left + pair % right))
        .collect();
    Rack {
        cards: left + right,
        links,
    }
}

/// Some of the links between two sides.
pub fn two_sides(rng: &mut Rng, left: usize, right: usize, links: usize) -> Rack {
    let mut rack = complete(left, right);
    rng.shuffle(&mut rack.links);
    rack.links.truncate(links);
    rack
}

/// Even rings, and now and then a single link, glued together at single cards.
pub fn cactus(rng: &mut Rng, cards: usize) -> Rack {
    let mut rack = chain(1);
    while rack.cards < cards {
        let new = rng.pick(&[1, 3, 3, 5, 7]).min(cards - rack.cards);
        let (glue, first) = (rng.below(rack.cards), rack.cards);
        rack.cards += new;
        rack.links.push((glue, first));
        rack.links
            .extend((first + 1..rack.cards).map(|card| (card - 1, card)));
        if new % 2 == 1 && new > 1 {
            rack.links.push((rack.cards - 1, glue));
        }
    }
    rack
}

/// Words as cards, linked where they differ in one bit.
fn words(words: &[usize]) -> Rack {
    let mut links = Vec::new();
    for (q, y) in words.iter().enumerate() {
        let nearer = words[..q].iter().enumerate();
        links.extend(
            nearer
                .filter(|(_, x)| (*x ^ y).is_power_of_two())
                .map(|(p, _)| (p, q)),
        );
    }
    Rack {
        cards: words.len(),
        links,
    }
}

/// All words below some words of a cube: with a word, all that clear some of its ones.
pub fn words_below(rng: &mut Rng, dimensions: usize) -> Rack {
    let tops: Vec<usize> = (0..rng.between(1, 6))
        .map(|_| rng.below(1 << dimensions))
        .collect();
    let below: Vec<usize> = (0..1 << dimensions)
        .filter(|word| tops.iter().any(|top| word & !top == 0))
        .collect();
    words(&below)
}

/// A cube without some of its cards.
pub fn holed_cube(rng: &mut Rng, dimensions: usize) -> Rack {
    let mut left: Vec<usize> = (0..1 << dimensions).collect();
    rng.shuffle(&mut left);
    left.truncate(left.len() - rng.below(left.len() / 3 + 1));
    words(&left)
}

/// All orders of some things, linked where one swap of neighbours leads from one to the other.
pub fn orders(things: usize) -> Rack {
    let mut orders: Vec<Vec<usize>> = vec![vec![]];
    for thing in 0..things {
        let longer = orders
            .iter()
            .flat_map(|order| (0..=order.len()).map(move |at| (order, at)));
        let insert =
            |(order, at): (&Vec<usize>, usize)| [&order[..at], &[thing], &order[at..]].concat();
        orders = longer.map(insert).collect();
    }
    let mut links = Vec::new();
    for (q, order) in orders.iter().enumerate() {
        for at in 1..things {
            let mut other = order.clone();
            other.swap(at - 1, at);
            let p = orders.iter().position(|order| *order == other);
            links.extend(p.filter(|&p| p < q).map(|p| (p, q)));
        }
    }
    Rack {
        cards: orders.len(),
        links,
    }
}

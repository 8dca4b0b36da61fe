//! The kinds of racks that the comparison tries, at random sizes.

use super::shapes::{cactus, holed_cube, orders, words_below};
use super::{chain, complete, cube, grid, product, ring, star, tree, two_sides, Rack, Rng};

/// Each pair of cards linked or not at random.
fn any_rack(rng: &mut Rng) -> Rack {
    let cards = rng.between(1, 12);
    let rarity = rng.between(1, 6);
    let pairs = (0..cards).flat_map(|q| (0..q).map(move |p| (p, q)));
    let links = pairs.filter(|_| rng.below(rarity) == 0).collect();
    Rack { cards, links }
}

/// Two small sides, linked at random, as many links as a tree has or a few more.
fn sparse_sides(rng: &mut Rng) -> Rack {
    let (left, right) = (rng.between(1, 6), rng.between(1, 7));
    let links = left + right - 1 + rng.below(5);
    two_sides(rng, left, right, links)
}

fn dense_sides(rng: &mut Rng) -> Rack {
    let (left, right) = (rng.between(16, 128), rng.between(16, 128));
    let links = rng.pick(&[2_048, 2_047, 1_000, 500]);
    two_sides(rng, left, right, links)
}

/// Mostly small, at times up to the most cards.
fn size(rng: &mut Rng, low: usize) -> usize {
    match rng.below(24) {
        0 => 256,
        1 => rng.between(low, 256),
        2..=4 => rng.between(low, 80),
        _ => rng.between(low, 20),
    }
}

/// Two sizes whose product is at most 256.
fn two_sizes(rng: &mut Rng, low: usize) -> (usize, usize) {
    let x = rng.between(low, 16);
    let most = if rng.below(8) == 0 {
        256 / x
    } else {
        (60 / x).max(low)
    };
    (x, rng.between(low, most))
}

/// A way to make racks, and the number that answers all of them, where the shape alone fixes it.
pub struct Shape {
    pub make: fn(&mut Rng) -> Rack,
    pub number: Option<u32>,
}

const fn shape(number: u32, make: fn(&mut Rng) -> Rack) -> Shape {
    let number = Some(number);
    Shape { make, number }
}

const fn open_shape(make: fn(&mut Rng) -> Rack) -> Shape {
    Shape { make, number: None }
}

/// The shape of a round, and whether its links are doubled: every other time that the shape comes up.
pub fn of_round(round: u64) -> (&'static Shape, bool) {
    let round = round as usize;
    let (turn, shape) = (round / SHAPES.len(), round % SHAPES.len());
    (&SHAPES[shape], (turn + shape) % 2 == 1)
}

const SHAPES: [Shape; 30] = [
    shape(0, |rng| chain(size(rng, 1))),
    shape(0, |rng| ring(size(rng, 4) & !1)),
    shape(0, |rng| star(size(rng, 1))),
    shape(0, |rng| {
        let cards = size(rng, 1);
        tree(rng, cards)
    }),
    shape(0, |rng| {
        let (width, height) = two_sizes(rng, 1);
        grid(width, height)
    }),
    shape(0, |rng| cube(rng.pick(&[1, 2, 3, 4, 4, 5, 5, 6, 7, 8]))),
    shape(0, |rng| {
        let rack = grid(rng.between(1, 8), rng.between(1, 8));
        let spurs = rng.below(20);
        rack.with_spurs(rng, spurs)
    }),
    shape(0, |rng| cube(rng.between(1, 5)).with_tail(rng.below(30))),
    shape(0, |rng| {
        let cards = size(rng, 1);
        cactus(rng, cards)
    }),
    shape(0, |rng| {
        let (x, y) = two_sizes(rng, 1);
        product(&tree(rng, x), &tree(rng, y))
    }),
    shape(0, |rng| {
        product(&ring(2 * rng.between(2, 8)), &chain(rng.between(1, 8)))
    }),
    shape(0, |rng| {
        product(&ring(2 * rng.between(2, 5)), &ring(2 * rng.between(2, 5)))
    }),
    shape(0, |rng| {
        let dimensions = rng.between(1, 8);
        words_below(rng, dimensions)
    }),
    shape(0, |rng| orders(rng.pick(&[2, 3, 3, 4, 4, 4, 5]))),
    shape(9, |rng| {
        let (x, y) = (rng.between(1, 20), rng.between(1, 20));
        tree(rng, x).beside(cactus(rng, y))
    }),
    shape(9, |rng| any_rack(rng).beside(chain(rng.between(1, 5)))),
    shape(10, |rng| ring((size(rng, 4) - 1) | 1)),
    shape(10, |rng| {
        let spurs = rng.below(30);
        ring(rng.pick(&[3, 5, 7, 9])).with_spurs(rng, spurs)
    }),
    shape(10, |rng| {
        let (width, height) = (rng.between(2, 8), rng.between(2, 8));
        grid(width, height).with_link(0, height + 1)
    }),
    shape(11, |rng| complete(rng.between(2, 12), rng.between(3, 12))),
    shape(11, |rng| {
        complete(rng.between(2, 8), rng.between(3, 8)).with_tail(rng.below(60))
    }),
    shape(11, |rng| cube(rng.pick(&[3, 3, 4, 5, 6])).with_link(0, 7)),
    open_shape(dense_sides),
    open_shape(any_rack),
    open_shape(any_rack),
    open_shape(sparse_sides),
    open_shape(sparse_sides),
    open_shape(|rng| {
        let dimensions = rng.pick(&[2, 3, 3, 4, 4, 5, 6]);
        holed_cube(rng, dimensions)
    }),
    open_shape(|rng| grid(rng.between(2, 7), rng.between(2, 7)).without_some_link(rng)),
    open_shape(|rng| {
        let cards = rng.between(4, 40);
        let rack = cactus(rng, cards);
        let (p, q) = (rng.below(cards / 2), rng.between(cards / 2, cards - 1));
        if rack.links.contains(&(p, q)) || rack.links.contains(&(q, p)) {
            return rack;
        }
        rack.with_link(p, q)
    }),
];

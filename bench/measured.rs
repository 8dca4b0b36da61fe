//! What bench.rs times and tests/cost.rs counts: racks of 256 cards, plans that no planner wrote, and the steps and walks on
//! them that take longest.

use crate::calls;
use crate::racks::{self, Rack, Rng};
use crate::second::{PLAN_BYTES, RECORD_BYTES};

const SEED: u64 = 7;
/// How many plans are stepped on in turn: more than a processor's branch predictor learns by heart.
const IN_TURN: usize = 60;

/// A rack of 256 cards, and the number that planning answers.
pub struct Measured {
    pub name: &'static str,
    pub rack: Rack,
    pub number: u32,
}

/// A frame on a plan, the two cards that it goes between, and whether it arrives and with how many hops.
pub struct Frame {
    pub name: &'static str,
    pub plan: Vec<u8>,
    pub ends: (u32, u32),
    pub answer: [u32; 2],
}

/// Three cards, the pairs of cards whose places are counted, and the answer: the number, 1 for a card or 0 for none, the card.
/// Beside them three numbers of which the last is no card: refused with 14, the call reads the plan and does no more.
#[allow(dead_code)]
pub struct Conference {
    pub counts: usize,
    pub three: [u32; 3],
    pub answer: [u32; 3],
    pub refused: [u32; 3],
}

/// The slowest wirings that a search found.
const SLOWEST: [(&str, u32, &[u8]); 4] = [
    (
        "slowest found, accepted",
        0,
        include_bytes!("wirings/slowest-accepted.wiring"),
    ),
    (
        "slowest found, accepted, with twins",
        0,
        include_bytes!("wirings/slowest-accepted-twins.wiring"),
    ),
    (
        "slowest found, refused with 10",
        10,
        include_bytes!("wirings/slowest-refused-10.wiring"),
    ),
    (
        "slowest found, refused with 11",
        11,
        include_bytes!("wirings/slowest-refused-11.wiring"),
    ),
];

/// A tail whose links stand behind all others.
fn tail_last(rng: &mut Rng) -> Rack {
    racks::cube(7).with_tail(128).renumbered(rng)
}

/// Cards are numbered and links ordered at random, except where a name says more. Of a doubled rack each link has a twin.
pub fn racks_of_256() -> Vec<Measured> {
    let rng = &mut Rng::new(SEED);
    let tree = racks::tree(rng, 256);
    let dense = racks::two_sides(rng, 128, 128, 2_048);
    let blob = racks::two_sides(rng, 48, 48, 1_800);
    let shuffled = [
        ("chain", 0, racks::chain(256)),
        ("ring", 0, racks::ring(256)),
        ("8-cube", 0, racks::cube(8)),
        ("grid of 16 x 16", 0, racks::grid(16, 16)),
        ("random tree", 0, tree),
        ("star", 0, racks::star(256)),
        ("tail of 128 on a 7-cube", 0, racks::cube(7).with_tail(128)),
        ("dense, two sides", 11, dense),
        ("tail of 160 on a dense blob", 11, blob.with_tail(160)),
    ]
    .map(|(name, number, rack)| (name, number, rack.shuffled(rng)));
    let slowest = SLOWEST.map(|(name, number, wiring)| (name, number, Rack::of(wiring)));
    let rest = [("tail of 128 on a 7-cube, links last", 0, tail_last(rng))];
    let doubled = [
        ("chain, doubled", racks::chain(256)),
        ("star, doubled", racks::star(256)),
        ("8-cube, doubled", racks::cube(8)),
    ]
    .map(|(name, rack)| (name, 0, rack.twice().shuffled(rng)));
    let all = shuffled
        .into_iter()
        .chain(rest)
        .chain(doubled)
        .chain(slowest);
    all.map(|(name, number, rack)| Measured { name, rack, number })
        .collect()
}

impl Measured {
    /// The plan that the library writes, where it does not refuse.
    pub fn plan(&self) -> Option<Vec<u8>> {
        let (mut plan, mut record) = (vec![0; PLAN_BYTES], [0; RECORD_BYTES]);
        let code = calls::write_plan(&self.rack.bytes(), &mut plan, &mut record);
        assert_eq!(code % 256, self.number, "planning: {}", self.name);
        plan.truncate(usize::from(u16::from_le_bytes([record[0], record[1]])));
        (code == 0).then_some(plan)
    }

    /// The wiring in a plan without columns, which 13 refuses.
    pub fn plan_without_columns(&self) -> Vec<u8> {
        let mut plan = self.rack.bytes();
        plan.splice(4..4, [0, 0]);
        plan
    }

    /// The steps to a neighbour for which no other step has both a later link and more earlier links at its card: a
    /// step looks at all links up to its own, and counts the places of the far card of each that is at its card.
    pub fn worst_steps(&self, plan: &[u8]) -> Vec<Frame> {
        let mut seen = vec![0; self.rack.cards];
        let mut steps = Vec::new();
        for (link, &(p, q)) in self.rack.links.iter().enumerate() {
            steps.extend([(link, seen[p], p, q), (link, seen[q], q, p)]);
            seen[p] += 1;
            seen[q] += 1;
        }
        steps.sort_unstable_by(|x, y| y.cmp(x));
        let mut most = None;
        steps.retain(|&(_, counted, ..)| {
            let more = Some(counted) > most;
            most = most.max(Some(counted));
            more
        });
        let steps = steps.into_iter();
        steps
            .map(|(_, _, from, to)| self.arriving(plan, from, to, 1))
            .collect()
    }

    /// The hops between two cards, by their addresses.
    fn hops(&self, plan: &[u8], p: usize, q: usize) -> u32 {
        let addresses = &plan[6 + 4 * self.rack.links.len()..];
        let width = addresses.len() / self.rack.cards;
        let row = |card: usize| &addresses[card * width..][..width];
        let bytes = row(p).iter().zip(row(q));
        bytes.map(|(x, y)| (x ^ y).count_ones()).sum()
    }

    /// Two cards that are farthest from each other.
    fn farthest(&self, plan: &[u8]) -> (usize, usize) {
        let pairs = (0..self.rack.cards).flat_map(|q| (0..q).map(move |p| (p, q)));
        pairs
            .max_by_key(|&(p, q)| self.hops(plan, p, q))
            .expect("a rack of several cards")
    }

    /// The walks between two cards that are farthest from each other.
    pub fn longest_walks(&self, plan: &[u8]) -> [Frame; 2] {
        let (p, q) = self.farthest(plan);
        let hops = self.hops(plan, p, q);
        [(p, q), (q, p)].map(|(from, to)| self.arriving(plan, from, to, hops))
    }

    /// Two cards that are farthest from each other, the third for which the search for their conference card counts the
    /// places of most pairs, that number, and the answer. A search counts two of each card, and one more of a card between the
    /// first two.
    #[allow(dead_code)]
    pub fn worst_conference(&self, plan: &[u8]) -> Conference {
        let (a, b) = self.farthest(plan);
        let hops = |p: usize, q: usize| self.hops(plan, p, q);
        let between = |p: usize, x: usize, q: usize| hops(p, x) + hops(x, q) == hops(p, q);
        let cards = 0..self.rack.cards;
        let conferences = cards.clone().map(|c| {
            let is_median = |&x: &usize| between(a, x, b) && between(a, x, c) && between(b, x, c);
            let card = cards.clone().find(is_median);
            let searched = cards
                .clone()
                .take(card.map_or(self.rack.cards, |card| card + 1));
            let counts = 3 + searched
                .map(|x| 2 + usize::from(between(a, x, b)))
                .sum::<usize>();
            Conference {
                counts,
                three: [a, b, c].map(|card| card as u32),
                answer: card.map_or([0; 3], |card| [0, 1, card as u32]),
                refused: [a, b, self.rack.cards].map(|card| card as u32),
            }
        });
        conferences
            .max_by_key(|conference| conference.counts)
            .expect("a rack of several cards")
    }

    fn arriving(&self, plan: &[u8], from: usize, to: usize, hops: u32) -> Frame {
        Frame {
            name: self.name,
            plan: plan.to_vec(),
            ends: (from as u32, to as u32),
            answer: [1, hops],
        }
    }
}

/// A plan of 256 cards and 255 columns, and how many ones each card has, in the first columns.
fn made_up_plan(links: Vec<(usize, usize)>, ones: fn(usize) -> usize) -> Vec<u8> {
    let mut plan = Rack { cards: 256, links }.bytes();
    plan.splice(4..4, [255, 0]);
    for card in 0..256 {
        let mut address = [0; 32];
        for column in 0..ones(card) {
            address[column / 8] |= 1 << (column % 8);
        }
        plan.extend(address);
    }
    plan
}

/// From card 0 to card 255, where no other card is nearer to card 255 than card 0.
fn stuck_frame(name: &'static str, links: Vec<(usize, usize)>) -> Frame {
    Frame {
        name,
        plan: made_up_plan(links, |card| if card == 255 { 255 } else { 0 }),
        ends: (0, 255),
        answer: [0, 0],
    }
}

/// All links at card 0.
pub fn stuck_at_hub() -> Frame {
    let links = (0..2_048).map(|link| (0, link % 255));
    stuck_frame("2,048 links at one card, refused with 13", links.collect())
}

/// Three in four links at card 0, either end first, and one in two to no card, at random.
fn stuck_in_tangle(rng: &mut Rng) -> Frame {
    let links = (0..2_048).map(|_| {
        let near = if rng.below(4) < 3 { 0 } else { rng.below(255) };
        let far = if rng.below(2) == 0 {
            256
        } else {
            rng.below(255)
        };
        rng.pick(&[(near, far), (far, near)])
    });
    stuck_frame("tangles of 2,048 links, refused with 13", links.collect())
}

/// From end to end of a chain whose links stand behind others that lead to no card.
pub fn chain_behind_others() -> Frame {
    let others = (0..1_793).map(|link| (link % 256, 256));
    let links = others.chain(racks::chain(256).links);
    Frame {
        name: "chain behind 1,793 other links, refused with 13",
        plan: made_up_plan(links.collect(), |card| card),
        ends: (0, 255),
        answer: [1, 255],
    }
}

/// Stuck frames on different plans that 13 refuses.
pub fn tangles_in_turn() -> Vec<Frame> {
    let rng = &mut Rng::new(SEED);
    (0..IN_TURN).map(|_| stuck_in_tangle(rng)).collect()
}

/// Frames on the plans of racks of one shape.
fn in_turn(
    name: &'static str,
    make: fn(&mut Rng) -> Rack,
    frames: fn(&Measured, &[u8]) -> Vec<Frame>,
) -> Vec<Frame> {
    let rng = &mut Rng::new(SEED);
    let frames = (0..IN_TURN).flat_map(|_| {
        let rack = make(rng);
        let measured = Measured {
            name,
            rack,
            number: 0,
        };
        let plan = measured.plan().expect("an accepted rack");
        frames(&measured, &plan)
    });
    frames.collect()
}

/// The worst steps on different plans that are read.
pub fn stars_in_turn() -> Vec<Frame> {
    let star = |rng: &mut Rng| racks::star(256).shuffled(rng);
    in_turn("stars", star, Measured::worst_steps)
}

/// The longest walks on different plans that are read.
pub fn tails_in_turn() -> Vec<Frame> {
    let frames = |measured: &Measured, plan: &[u8]| measured.longest_walks(plan).into();
    in_turn("tails of 128 on 7-cubes, links last", tail_last, frames)
}

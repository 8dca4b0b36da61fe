//! Planning by breadth-first search: the whole columns of all links in a set, and then the test of all pairs.

use super::{differing, ends, number, refuse, refuse_at, Bits, Refusal};
use super::{MOST_CARDS, MOST_LINKS, MOST_PARALLEL, PLAN_BYTES};
use std::collections::HashSet;

const UNREACHED: u16 = u16::MAX;

pub struct Wiring {
    pub cards: usize,
    pub links: Vec<(usize, usize)>,
}

pub struct Plan {
    pub wiring: Wiring,
    pub columns: usize,
    pub addresses: Vec<Bits>,
}

/// Plans a wiring file: gives every card its address, or refuses with 2 to 11.
pub fn plan(file: &[u8]) -> Result<Plan, Refusal> {
    let wiring = read_wiring(file)?;
    let hops = all_hops(&wiring)?;
    let columns = columns(&wiring, &hops)?;
    let addresses = addresses(wiring.cards, &columns);
    if !addresses_match_hops(&addresses, &hops) {
        return refuse(11);
    }
    Ok(Plan {
        wiring,
        columns: columns.len(),
        addresses,
    })
}

pub fn read_wiring(file: &[u8]) -> Result<Wiring, Refusal> {
    if file.len() < 4 {
        return refuse(2);
    }
    let (cards, links) = (number(&file[0..]), number(&file[2..]));
    if cards == 0 || cards > MOST_CARDS {
        return refuse(3);
    }
    if links > MOST_LINKS {
        return refuse(4);
    }
    if file.len() != 4 + 4 * links {
        return refuse(5);
    }
    let (firsts, seconds) = file[4..].split_at(2 * links);
    let links: Vec<_> = ends(firsts, seconds).collect();
    check_links(cards, &links)?;
    Ok(Wiring { cards, links })
}

fn check_links(cards: usize, links: &[(usize, usize)]) -> Result<(), Refusal> {
    let mut joined = vec![0; cards * cards];
    for (link, &(p, q)) in links.iter().enumerate() {
        if p >= cards || q >= cards {
            return refuse_at(6, link);
        }
        if p == q {
            return refuse_at(7, link);
        }
        let pair = &mut joined[p.min(q) * cards + p.max(q)];
        if *pair == MOST_PARALLEL {
            return refuse_at(8, link);
        }
        *pair += 1;
    }
    Ok(())
}

/// The hops between all cards, one row for each card, or 9 or 10.
pub fn all_hops(wiring: &Wiring) -> Result<Vec<Vec<u16>>, Refusal> {
    let neighbours = neighbours(wiring);
    let home = hops_from(0, &neighbours);
    if let Some(card) = home.iter().position(|&hops| hops == UNREACHED) {
        return refuse_at(9, card);
    }
    if let Some(link) = wiring.links.iter().position(|&(p, q)| home[p] == home[q]) {
        return refuse_at(10, link);
    }
    let others = (1..wiring.cards).map(|card| hops_from(card, &neighbours));
    Ok(std::iter::once(home).chain(others).collect())
}

pub fn neighbours(wiring: &Wiring) -> Vec<Vec<usize>> {
    let mut neighbours = vec![Vec::new(); wiring.cards];
    for &(p, q) in &wiring.links {
        neighbours[p].push(q);
        neighbours[q].push(p);
    }
    neighbours
}

/// Breadth-first search from one card.
pub fn hops_from(start: usize, neighbours: &[Vec<usize>]) -> Vec<u16> {
    let mut hops = vec![UNREACHED; neighbours.len()];
    let mut queue = Vec::with_capacity(neighbours.len());
    hops[start] = 0;
    queue.push(start);
    let mut done = 0;
    while let Some(&card) = queue.get(done) {
        done += 1;
        for &far in &neighbours[card] {
            if hops[far] == UNREACHED {
                hops[far] = hops[card] + 1;
                queue.push(far);
            }
        }
    }
    hops
}

/// The different splits of the cards, by their lowest link: fewer than cards in an accepted rack.
fn columns(wiring: &Wiring, hops: &[Vec<u16>]) -> Result<Vec<Bits>, Refusal> {
    let mut seen = HashSet::new();
    let mut columns = Vec::new();
    for &(p, q) in &wiring.links {
        let side = side_without_card_0(&hops[p], &hops[q]);
        if seen.insert(side) {
            columns.push(side);
        }
        if columns.len() == wiring.cards {
            return refuse(11);
        }
    }
    Ok(columns)
}

/// Of the two sets into which a link splits the cards, the one without card 0.
fn side_without_card_0(from_p: &[u16], from_q: &[u16]) -> Bits {
    let nearer_p = from_p[0] < from_q[0];
    let mut side = Bits::default();
    let chunks = from_p.chunks(64).zip(from_q.chunks(64));
    for (word, (ps, qs)) in side.iter_mut().zip(chunks) {
        for (place, (p, q)) in ps.iter().zip(qs).enumerate() {
            *word |= u64::from((p < q) != nearer_p) << place;
        }
    }
    side
}

fn addresses(cards: usize, columns: &[Bits]) -> Vec<Bits> {
    let mut addresses = vec![Bits::default(); cards];
    for (j, column) in columns.iter().enumerate() {
        for (card, address) in addresses.iter_mut().enumerate() {
            let bit = column[card / 64] >> (card % 64) & 1;
            address[j / 64] |= bit << (j % 64);
        }
    }
    addresses
}

fn addresses_match_hops(addresses: &[Bits], hops: &[Vec<u16>]) -> bool {
    addresses.iter().zip(hops).enumerate().all(|(a, (x, row))| {
        let mut earlier = addresses[..a].iter().zip(row);
        earlier.all(|(y, &hops)| differing(x, y) == u32::from(hops))
    })
}

/// The wiring file of some cards and the ends of their links.
pub fn wiring_file(cards: usize, links: &[(usize, usize)]) -> Vec<u8> {
    let sizes = [cards, links.len()].into_iter();
    let firsts = links.iter().map(|&(p, _)| p);
    let seconds = links.iter().map(|&(_, q)| q);
    let numbers = sizes.chain(firsts).chain(seconds);
    numbers
        .flat_map(|number| (number as u16).to_le_bytes())
        .collect()
}

impl Plan {
    /// The plan file.
    pub fn bytes(&self) -> Vec<u8> {
        let links = &self.wiring.links;
        let mut file = Vec::with_capacity(PLAN_BYTES);
        let sizes = [self.wiring.cards, links.len(), self.columns].into_iter();
        let firsts = links.iter().map(|&(p, _)| p);
        let seconds = links.iter().map(|&(_, q)| q);
        for number in sizes.chain(firsts).chain(seconds) {
            file.extend((number as u16).to_le_bytes());
        }
        for address in &self.addresses {
            let bytes = address.iter().flat_map(|word| word.to_le_bytes());
            file.extend(bytes.take(self.columns.div_ceil(8)));
        }
        file
    }
}

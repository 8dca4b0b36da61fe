//! Wiring files with faults.

use super::{either_way, put_number};
use crate::racks::{Rack, Rng};
use crate::second::{MOST_LINKS, MOST_PARALLEL};

/// A wiring file, and the number it is answered with, where the fault alone fixes it.
pub struct Faulty {
    pub wiring: Vec<u8>,
    pub number: Option<u32>,
}

/// Puts some fault into a well-formed rack or its file. Kinds 2 to 9 are answered with that number.
pub fn faulty_wiring(rng: &mut Rng, rack: &Rack) -> Faulty {
    let kind = rng.between(2, 13);
    let fixed = kind < 10 && (kind != 8 || !rack.links.is_empty());
    let mut rack = rack.clone();
    match kind {
        6 => out_of_range(rng, &mut rack),
        7 => one_card(rng, &mut rack),
        8 => third_link(rng, &mut rack),
        9 => lonely_card(rng, &mut rack),
        10 => many_faults(rng, &mut rack),
        11 => stray_link(rng, &mut rack),
        _ => {}
    }
    let sound = rack.bytes();
    let wiring = match kind {
        2 => sound[..rng.below(4)].to_vec(),
        3 => wrong_cards(rng, sound),
        4 => wrong_links(rng, rack),
        5 => wrong_length(rng, sound),
        12 => few_numbers(rng),
        13 => {
            let len = rng.below(64);
            rng.bytes(len)
        }
        _ => sound,
    };
    Faulty {
        wiring,
        number: fixed.then_some(kind as u32),
    }
}

fn wrong_cards(rng: &mut Rng, mut file: Vec<u8>) -> Vec<u8> {
    let any = rng.between(257, 65_535);
    put_number(&mut file, 0, rng.pick(&[0, 257, 512, 65_535, any]));
    file
}

fn wrong_links(rng: &mut Rng, mut rack: Rack) -> Vec<u8> {
    if rng.below(8) == 0 {
        rack.links.resize(rng.pick(&[2_049, 2_050]), (0, 1));
        return rack.bytes();
    }
    let any = rng.between(2_049, 65_535);
    let mut file = rack.bytes();
    put_number(&mut file, 1, rng.pick(&[2_049, 65_535, any]));
    file
}

fn wrong_length(rng: &mut Rng, mut file: Vec<u8>) -> Vec<u8> {
    if rng.below(2) == 0 && file.len() > 4 {
        file.truncate(file.len() - rng.between(1, 4));
    } else {
        let more = rng.between(1, 5);
        file.extend(rng.bytes(more));
    }
    file
}

fn insert(rng: &mut Rng, rack: &mut Rack, link: (usize, usize)) {
    rack.links.truncate(MOST_LINKS - 1);
    let at = rng.between(0, rack.links.len());
    rack.links.insert(at, link);
}

fn out_of_range(rng: &mut Rng, rack: &mut Rack) {
    let any = rng.between(rack.cards, 65_535);
    let wrong = rng.pick(&[rack.cards, rack.cards + 1, 65_535, any]);
    let right = rng.below(rack.cards);
    let other = rng.pick(&[right, right, wrong]);
    let link = either_way(rng, wrong, other);
    insert(rng, rack, link);
}

fn one_card(rng: &mut Rng, rack: &mut Rack) {
    let card = rng.below(rack.cards);
    insert(rng, rack, (card, card));
}

/// One link more between two linked cards than may join them.
fn third_link(rng: &mut Rng, rack: &mut Rack) {
    rack.links.truncate(MOST_LINKS - MOST_PARALLEL);
    if rack.links.is_empty() {
        return;
    }
    let (p, q) = rng.pick(&rack.links);
    while rack.joining(p, q) <= MOST_PARALLEL {
        let link = either_way(rng, p, q);
        insert(rng, rack, link);
    }
}

/// Takes all links from one card, or adds a card; a rack of one card gets a second one.
fn lonely_card(rng: &mut Rng, rack: &mut Rack) {
    if rack.cards < 256 && rng.below(2) == 0 || rack.cards == 1 {
        rack.cards += 1;
    } else {
        let card = rng.below(rack.cards);
        rack.links.retain(|&(p, q)| p != card && q != card);
    }
}

fn many_faults(rng: &mut Rng, rack: &mut Rack) {
    for _ in 0..rng.between(2, 5) {
        match rng.below(4) {
            0 => out_of_range(rng, rack),
            1 => one_card(rng, rack),
            2 => lonely_card(rng, rack),
            _ => third_link(rng, rack),
        }
    }
}

fn stray_link(rng: &mut Rng, rack: &mut Rack) {
    let link = (rng.below(rack.cards), rng.below(rack.cards));
    insert(rng, rack, link);
}

/// A file of the right length with few cards and any links.
fn few_numbers(rng: &mut Rng) -> Vec<u8> {
    let cards = rng.between(1, 8);
    let links = (0..rng.below(8))
        .map(|_| (rng.below(cards + 1), rng.below(cards)))
        .collect();
    Rack { cards, links }.bytes()
}

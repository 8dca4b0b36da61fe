//! Plan files that are damaged or made up.

use super::{either_way, number, put_number};
use crate::racks::{Rack, Rng};

/// A plan taken apart. Rows have all bits of the addresses, those behind the last column too.
struct Draft {
    rack: Rack,
    columns: usize,
    rows: Vec<Vec<bool>>,
}

impl Draft {
    fn of(plan: &[u8]) -> Draft {
        let rack = plan_rack(plan);
        let columns = number(plan, 2);
        let width = columns.div_ceil(8);
        let addresses = &plan[6 + 4 * rack.links.len()..];
        let bits = |bytes: &[u8]| {
            (0..8 * width)
                .map(|j| bytes[j / 8] >> (j % 8) & 1 == 1)
                .collect()
        };
        let rows = (0..rack.cards)
            .map(|card| bits(&addresses[card * width..][..width]))
            .collect();
        Draft {
            rack,
            columns,
            rows,
        }
    }

    fn bytes(&self) -> Vec<u8> {
        let mut file = self.rack.bytes();
        let columns = (self.columns as u16).to_le_bytes();
        file.splice(4..4, columns);
        let byte = |bits: &[bool]| {
            bits.iter()
                .rev()
                .fold(0, |byte, &bit| 2 * byte + u8::from(bit))
        };
        file.extend(self.rows.iter().flat_map(|row| row.chunks(8).map(byte)));
        file
    }
}

/// The rack inside a plan file of a sound layout.
pub fn plan_rack(plan: &[u8]) -> Rack {
    let links = number(plan, 1);
    Rack::of(&[&plan[..4], &plan[6..6 + 4 * links]].concat())
}

/// A sound plan with some change. Now and then it is sound again.
pub fn damaged_plan(rng: &mut Rng, sound: &[u8]) -> Vec<u8> {
    let mut file = sound.to_vec();
    match rng.below(16) {
        0 => file.truncate(rng.below(sound.len())),
        1 => file.truncate(sound.len() - 1),
        2 => file.push(rng.draw() as u8),
        3 => put_number(
            &mut file,
            rng.below(3),
            rng.pick(&[0, 1, 255, 256, 257, 2_048, 2_049, 65_535]),
        ),
        4 => {
            let place = rng.below(3);
            let size = number(&file, place);
            put_number(
                &mut file,
                place,
                rng.pick(&[size + 1, size.wrapping_sub(1)]),
            );
        }
        5 => {
            let at = rng.below(file.len());
            file[at] ^= 1 << rng.below(8);
        }
        6 => {
            let at = rng.below(file.len());
            file[at] = rng.draw() as u8;
        }
        7 | 8 => damage_address_bit(rng, &mut file),
        _ => return damaged_draft(rng, sound),
    }
    file
}

fn damage_address_bit(rng: &mut Rng, file: &mut [u8]) {
    let start = 6 + 4 * number(file, 1);
    if start < file.len() {
        let at = rng.between(start, file.len() - 1);
        file[at] ^= 1 << rng.below(8);
    }
}

fn damaged_draft(rng: &mut Rng, sound: &[u8]) -> Vec<u8> {
    let mut draft = Draft::of(sound);
    if rng.below(2) == 0 {
        damage_rows(rng, &mut draft);
    } else {
        damage_links(rng, &mut draft);
    }
    draft.bytes()
}

fn damage_rows(rng: &mut Rng, draft: &mut Draft) {
    let (card, other) = (rng.below(draft.rack.cards), rng.below(draft.rack.cards));
    let width = draft.rows[card].len();
    if width == 0 {
        return;
    }
    let column = rng.below(draft.columns);
    match rng.below(6) {
        0 => draft.rows[card].fill(false),
        1 => draft.rows[card] = draft.rows[other].clone(),
        2 => draft.rows.swap(card, other),
        3 => {
            let second = rng.below(draft.columns);
            draft
                .rows
                .iter_mut()
                .for_each(|row| row.swap(column, second));
        }
        4 => draft
            .rows
            .iter_mut()
            .for_each(|row| row[column] = !row[column]),
        _ => draft.rows[card][draft.columns..].fill(true),
    }
}

fn damage_links(rng: &mut Rng, draft: &mut Draft) {
    let Rack { cards, links } = &mut draft.rack;
    if links.is_empty() {
        return;
    }
    let (link, other) = (rng.below(links.len()), rng.below(links.len()));
    match rng.below(5) {
        0 => links[link] = (links[link].1, links[link].0),
        1 => links.swap(link, other),
        2 => links[link].0 = rng.below(*cards),
        3 => links[link].1 = rng.pick(&[*cards, *cards + 1, 65_535]),
        _ => links[link].1 = links[link].0,
    }
}

/// A plan that no planner wrote: any links and any addresses, mostly under sizes that fit.
pub fn made_up_plan(rng: &mut Rng) -> Vec<u8> {
    match rng.below(8) {
        0 => {
            let len = rng.below(40);
            rng.bytes(len)
        }
        1 => wrong_sizes(rng),
        _ => made_up_draft(rng).bytes(),
    }
}

/// Sizes out of their range and a file of the length that they ask for.
fn wrong_sizes(rng: &mut Rng) -> Vec<u8> {
    let mut sizes = [rng.between(1, 256), rng.below(60), rng.below(256)];
    let size = rng.below(3);
    sizes[size] = [
        rng.pick(&[0, 257, 300]),
        2_049,
        rng.pick(&[256, 257, 1_000]),
    ][size];
    let len = 6 + 4 * sizes[1] + sizes[0] * sizes[2].div_ceil(8);
    let mut file = rng.bytes(len);
    for (place, size) in sizes.into_iter().enumerate() {
        put_number(&mut file, place, size);
    }
    file
}

fn made_up_draft(rng: &mut Rng) -> Draft {
    let most = rng.pick(&[6, 12, 12, 30, 256]);
    let cards = rng.between(1, most);
    let any = rng.between(1, 255);
    let columns = rng.pick(&[
        0, 1, 2, 3, 4, 5, 7, 8, 9, 16, 17, 63, 64, 65, 128, 249, 255, any,
    ]);
    let most = rng.pick(&[10, 60, 60, 400, 2_048]);
    let links = rng.between(most / 4, most);
    let hub = rng.below(cards);
    let at_hub = rng.below(3) == 0;
    let links = (0..links).map(|_| {
        let first = if at_hub { hub } else { some_end(rng, cards) };
        let second = some_end(rng, cards);
        either_way(rng, first, second)
    });
    let rack = Rack {
        cards,
        links: links.collect(),
    };
    let rarity = rng.pick(&[2, 2, 3, 8]);
    let width = 8 * columns.div_ceil(8);
    let row = |_| (0..width).map(|_| rng.below(rarity) == 0).collect();
    let rows = (0..cards).map(row).collect();
    Draft {
        rack,
        columns,
        rows,
    }
}

fn some_end(rng: &mut Rng, cards: usize) -> usize {
    match rng.below(12) {
        0 => rng.pick(&[cards, cards + 1, 256, 257, 65_535]),
        _ => rng.below(cards),
    }
}

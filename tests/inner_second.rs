//! What the calls of libtest_calls.a mean, by the rules alone, over the second implementation.

use crate::inner_both::{Call, Kind, Name};
use crate::inner_callers::{caller_walk, next_frame};
use crate::inner_lent::Lents;
use crate::inner_reading::{address, conference, new_plan, read, Known};
use crate::second::columns::{differing_columns, first_of};
use crate::second::listing::listing;
use crate::second::planner::{all_hops, plan};
use crate::second::plans::Layout;

const CARDS: usize = 256;

/// The answer's fields go into lent numbers; where these are not as many, the call is 1 and touches nothing.
pub fn ask(known: &mut Known, call: &Call, input: &[u8], lent: &mut Lents) -> u32 {
    if lent.fields.items().len() != call.name.lengths().fields {
        return 1;
    }
    let input = seen(call, input);
    match call.name.kind() {
        Kind::Plan => plan_rack(call, input, lent),
        Kind::Listing => listing_text(call, input, lent),
        Kind::Address => address(known, call, input, lent),
        Kind::Sizes | Kind::Summed => read(known, call, input, lent),
        Kind::Places => plan_places(call, input, lent),
        Kind::Step => step_frame(call, input, lent),
        Kind::Walk => walk_frame(call, input, lent),
        Kind::CallerWalk => caller_walk(call, input, lent),
        Kind::Choice => next_frame(call, lent),
        Kind::Conference => conference(known, call, input, lent),
        Kind::NewPlan => new_plan(known, call, input, lent),
    }
}

/// An opened plan whose sizes differ from those in its bytes is 12 in every call, as no bytes are; and a refused
/// opening has no bytes.
fn seen<'a>(call: &Call, input: &'a [u8]) -> &'a [u8] {
    let sizes = call.sizes.map(|size| size as usize);
    let whole = match call.name {
        name if name.carries_sizes() => {
            Layout::new(input).is_ok_and(|plan| [plan.cards, plan.links, plan.columns] == sizes)
        }
        Name::OpenedStep | Name::OpenedWalk => Layout::read(input).is_ok(),
        _ => true,
    };
    if whole {
        input
    } else {
        &[]
    }
}

pub fn put(lent: &mut Lents, fields: &[usize]) {
    for (place, &field) in lent.fields.items_mut().iter_mut().zip(fields) {
        *place = field as u32;
    }
}

/// Four words a card; column j is bit j mod 64 of word j / 64. The hops stand at 256 times from plus to.
fn plan_rack(call: &Call, file: &[u8], lent: &mut Lents) -> u32 {
    let right = call.name.lengths();
    put(lent, &[0, 0]);
    let (words, hops) = (lent.words.items_mut(), lent.bytes.items_mut());
    if words.len() != right.words || hops.len() != right.bytes {
        return 1;
    }
    words.fill(0);
    hops.fill(0);
    let planned = match plan(file) {
        Ok(planned) => planned,
        Err(refusal) => {
            put(lent, &[refusal.at, 0]);
            return refusal.number;
        }
    };
    for (places, address) in words.chunks_exact_mut(4).zip(&planned.addresses) {
        places.copy_from_slice(address);
    }
    let rows = all_hops(&planned.wiring).unwrap_or_default();
    for (places, row) in hops.chunks_exact_mut(CARDS).zip(rows) {
        for (place, hops) in places.iter_mut().zip(row) {
            *place = hops as u8;
        }
    }
    put(lent, &[0, planned.columns]);
    0
}

fn listing_text(call: &Call, file: &[u8], lent: &mut Lents) -> u32 {
    put(lent, &[0, 0]);
    let text = lent.bytes.items_mut();
    if text.len() != call.name.lengths().bytes {
        return 1;
    }
    let listing = listing(file);
    text.fill(0);
    text[..listing.len()].copy_from_slice(listing.as_bytes());
    put(lent, &[0, listing.len()]);
    0
}

/// The plan's layout, with both cards of a frame in it: 12, 14.
fn frame<'a>(call: &Call, plan: &'a [u8]) -> Result<(Layout<'a>, usize, usize), u32> {
    let plan = Layout::new(plan).map_err(|refusal| refusal.number)?;
    let (from, goal) = (call.from as usize, call.goal as usize);
    if from >= plan.cards || goal >= plan.cards {
        return Err(14);
    }
    Ok((plan, from, goal))
}

/// Stuck, arrived, or over a link of the card to its far card: the first, rising, whose far address differs from the
/// goal's in fewer places than the card's own does.
fn step(plan: &Layout, at: usize, goal: usize) -> [usize; 3] {
    if at == goal {
        return [1, 0, 0];
    }
    let goal = plan.address(goal);
    let places = |card: usize| -> u32 {
        let pairs = plan.address(card).into_iter().zip(goal);
        pairs.map(|(x, y)| (x ^ y).count_ones()).sum()
    };
    let end = |ends: &[u8], link: usize| {
        usize::from(ends[2 * link]) + 256 * usize::from(ends[2 * link + 1])
    };
    let own = places(at);
    for link in 0..plan.links {
        let (p, q) = (end(plan.firsts, link), end(plan.seconds, link));
        if p >= plan.cards || q >= plan.cards || (p != at && q != at) {
            continue;
        }
        let far = if p == at { q } else { p };
        if places(far) < own {
            return [2, link, far];
        }
    }
    [0, 0, 0]
}

/// How many columns differ, and the lowest.
fn plan_places(call: &Call, plan: &[u8], lent: &mut Lents) -> u32 {
    put(lent, &[0, 0, 0]);
    match frame(call, plan) {
        Ok((plan, a, b)) => {
            let columns = differing_columns(&plan, a, b);
            let [found, column] = first_of(&columns);
            put(lent, &[columns.len(), found, column]);
            0
        }
        Err(number) => number,
    }
}

/// A step over a link crosses the lowest column in which its card and the far card differ.
fn step_frame(call: &Call, plan: &[u8], lent: &mut Lents) -> u32 {
    put(lent, &[0; 5]);
    match frame(call, plan) {
        Ok((plan, from, goal)) => {
            let [outcome, link, far] = step(&plan, from, goal);
            let [found, column] = match outcome {
                2 => first_of(&differing_columns(&plan, from, far)),
                _ => [0, 0],
            };
            put(lent, &[outcome, link, far, found, column]);
            0
        }
        Err(number) => number,
    }
}

/// With a refusal the counts come back as they were, and no column. A walk crosses first what its first step crosses.
fn walk_frame(call: &Call, plan: &[u8], lent: &mut Lents) -> u32 {
    let [frames, total] = call.counts.map(|count| count as usize);
    put(lent, &[0, 0, frames, total, 0, 0]);
    if lent.met.items().len() != call.name.lengths().met {
        return 1;
    }
    let (plan, from, goal) = match frame(call, plan) {
        Ok(found) => found,
        Err(number) => return number,
    };
    let mut met = vec![from];
    let mut last = step(&plan, from, goal);
    while let [2, _, far] = last {
        met.push(far);
        last = step(&plan, far, goal);
    }
    let (arrived, hops) = (last[0], met.len() - 1);
    let most = u32::MAX as usize;
    let (frames, total) = (frames + arrived, total + arrived * hops);
    if frames > most || total > most {
        return 15;
    }
    let places = lent.met.items_mut();
    places.fill(0);
    for (place, &card) in places.iter_mut().zip(&met) {
        *place = card as u16;
    }
    let [found, column] = match met[..] {
        [first, second, ..] => first_of(&differing_columns(&plan, first, second)),
        _ => [0, 0],
    };
    put(lent, &[arrived, hops, frames, total, found, column]);
    0
}

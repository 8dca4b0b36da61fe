//! A rack and the same rack with links doubled: the same numbers and the same hops; and steps, one after another as a walk goes, each over
//! the lowest link that joins its two cards.

use crate::inner_both::{Both, Call, Name};
use crate::inner_named::plan_of;
use crate::racks::twins::Doubled;
use crate::racks::{chain, Rack, Rng};
use crate::second::MOST_CARDS;
use crate::stop;

/// How many walks are followed on a plan.
const WALKS: usize = 6;

/// The longest chain with each link doubled, from end to end and back, with the turned links behind the others and in front of them.
pub fn check(both: &mut Both) {
    let last = MOST_CARDS - 1;
    let mut rack = chain(MOST_CARDS).twice();
    for _ in 0..2 {
        let plan = plan_of(&rack);
        follow_walk(both, &rack, &plan, 0, last);
        follow_walk(both, &rack, &plan, last, 0);
        rack.links.rotate_left(last);
    }
}

/// Plans both racks in lent words and hops.
pub fn plan_doubled(both: &mut Both, plain: &Rack, doubled: &Doubled) {
    let name = Name::PlanRack;
    let [before, after] = [plain, &doubled.rack]
        .map(|rack| both.call(Call::new(name), &rack.bytes(), name.lengths()));
    let [hops, hops_now] = [&before, &after].map(|answer| answer.lent.bytes.items());
    if before.number != after.number || hops != hops_now {
        let (was, is, links) = (before.number, after.number, &doubled.rack.links);
        stop(&format!(
            "FAILED: {was} without twins, {is} with them, or other hops: {links:?}"
        ));
    }
}

/// Follows walks between some cards of a rack.
pub fn follow_links(both: &mut Both, rng: &mut Rng, rack: &Rack, plan: &[u8]) {
    for _ in 0..WALKS {
        let [from, goal] = [0; 2].map(|_| rng.below(rack.cards));
        follow_walk(both, rack, plan, from, goal);
    }
}

/// Each step of a walk leads to the next card that the walk meets, over the lowest link between the two.
pub fn follow_walk(both: &mut Both, rack: &Rack, plan: &[u8], from: usize, goal: usize) {
    let mut ask = |name: Name, at: usize| {
        let call = Call {
            from: at as u32,
            goal: goal as u32,
            ..Call::new(name)
        };
        both.call(call, plan, name.lengths()).lent
    };
    let walk = ask(Name::WalkFrame, from);
    let hops = walk.fields.items()[1] as usize;
    let met: Vec<usize> = walk.met.items().iter().map(|&card| card.into()).collect();
    let mut twins = 0;
    for pair in met[..=hops].windows(2) {
        let (p, q) = (pair[0], pair[1]);
        let step = ask(Name::StepFrame, p);
        let joins = |&link: &(usize, usize)| link == (p, q) || link == (q, p);
        let lowest = rack.links.iter().position(joins);
        let taken = &step.fields.items()[..3];
        if lowest.is_none_or(|link| taken != [2, link as u32, q as u32]) {
            stop(&format!(
                "FAILED: from {p} to {goal}: {taken:?}, and the lowest link to {q} is {lowest:?}: {:?}",
                rack.links
            ));
        }
        twins += u64::from(rack.joining(p, q) > 1);
    }
    both.counted.twins += twins;
}

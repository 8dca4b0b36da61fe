//! The cases of a walk's caller and of that caller's counts, with their answers.

use crate::both::{Both, Call, Lengths};
use crate::drawn::MOST;
use crate::named::{bytes, P10_PLAN, P5_PLAN};
use crate::second::CALLERS;

/// A plan that says no card.
const NO_PLAN: &str = "00 00 00 00 00 00";

/// Callers of P9's frame, and the number that each is answered with.
const CALLED: [(u32, u32); 7] = [
    (0, 0),
    (15, 0),
    (16, 18),
    (255, 18),
    (256, 18),
    (65_536, 18),
    (MOST, 18),
];

/// Name, plan, ends, caller, counts and number of frames that are refused, most for more than one reason.
const ORDER: [(&str, &str, [u32; 2], u32, [u32; 2], u32); 9] = [
    ("12 before 18", NO_PLAN, [0, 0], 16, [7, 9], 12),
    ("12 before 18, 14", NO_PLAN, [4, 4], MOST, [7, 9], 12),
    ("18 before 14, first", P5_PLAN, [4, 0], 16, [7, 9], 18),
    ("18 before 14, goal", P5_PLAN, [0, 4], 16, [7, 9], 18),
    ("18 before 14, both", P5_PLAN, [4, 4], MOST, [7, 9], 18),
    ("18 before 15", P5_PLAN, [0, 2], 16, [MOST, MOST], 18),
    ("14 before 15", P5_PLAN, [0, 4], 15, [MOST, MOST], 14),
    ("14, caller 15", P5_PLAN, [4, 0], 15, [7, 9], 14),
    ("18 before stuck", P10_PLAN, [0, 2], 16, [7, 9], 18),
];

/// Name, ends, counts and hops of frames on P5's plan that the counts can take.
const TAKEN: [(&str, [u32; 2], [u32; 2], u32); 5] = [
    ("frames one below the limit", [0, 2], [MOST - 1, 0], 2),
    ("hops one below the limit", [0, 1], [0, MOST - 1], 1),
    ("hops two below the limit", [0, 2], [0, MOST - 2], 2),
    ("both just fit", [0, 2], [MOST - 1, MOST - 2], 2),
    ("to itself, hops full", [2, 2], [0, MOST], 0),
];

/// Name, ends and counts of frames there that the counts cannot take.
const FULL: [(&str, [u32; 2], [u32; 2]); 5] = [
    ("frames full", [0, 2], [MOST, 0]),
    ("hops full", [0, 1], [0, MOST]),
    ("two hops, one below the limit", [0, 2], [0, MOST - 1]),
    ("both full", [0, 2], [MOST, MOST]),
    ("to itself, frames full", [2, 2], [MOST, 0]),
];

/// Name, ends and hops of frames on P10's plan that are stuck, whatever the counts.
const STUCK: [(&str, [u32; 2], u32); 2] = [
    ("stuck at once, both full", [0, 2], 0),
    ("stuck after a hop, both full", [1, 2], 1),
];

struct Frame<'a> {
    name: &'a str,
    plan: &'a str,
    ends: [u32; 2],
    caller: u32,
    counts: [u32; 2],
}

impl Frame<'_> {
    /// The answer is this record, or a refusal with this number.
    fn answered(&self, both: &mut Both, given: Result<[u32; 4], u32>) {
        let plan = bytes(self.plan);
        let answer = both.walk(&plan, self.ends, self.caller, self.counts);
        let right = match given {
            Ok(record) => answer.code == 0 && answer.record() == record,
            Err(number) => answer.code == number,
        };
        let Frame { name, caller, .. } = self;
        let what = format!("{name}, caller {caller}: not the answer that the rules name");
        both.expect(right, &what, &plan, &answer);
    }
}

/// Every call is held to what its number leaves: with each of 1, 12, 14, 15 and 18 all lent bytes are as they were.
pub fn check(both: &mut Both) {
    for (caller, number) in CALLED {
        let frame = Frame {
            name: "P9",
            plan: P5_PLAN,
            ends: [0, 2],
            caller,
            counts: [7, 9],
        };
        let given = match number {
            0 => Ok([1, 2, 8, 11]),
            _ => Err(number),
        };
        frame.answered(both, given);
    }
    for (name, plan, ends, caller, counts, number) in ORDER {
        let frame = Frame {
            name,
            plan,
            ends,
            caller,
            counts,
        };
        frame.answered(both, Err(number));
    }
    (0..CALLERS).for_each(|caller| counted(both, caller));
    wrong_lengths(both);
}

/// A caller's counts at their limits, and below.
fn counted(both: &mut Both, caller: u32) {
    let frame = |name, plan, ends, counts| Frame {
        name,
        plan,
        ends,
        caller,
        counts,
    };
    for (name, ends, counts, hops) in TAKEN {
        let record = [1, hops, counts[0] + 1, counts[1] + hops];
        frame(name, P5_PLAN, ends, counts).answered(both, Ok(record));
    }
    for (name, ends, counts) in FULL {
        frame(name, P5_PLAN, ends, counts).answered(both, Err(15));
    }
    for (name, ends, hops) in STUCK {
        let record = [0, hops, MOST, MOST];
        frame(name, P10_PLAN, ends, [MOST, MOST]).answered(both, Ok(record));
    }
}

/// 1 before 12 and 18.
fn wrong_lengths(both: &mut Both) {
    let walk = Call::Walk {
        from: 0,
        to: 2,
        caller: 16,
    };
    for plan in [P5_PLAN, NO_PLAN].map(bytes) {
        for (result, record) in [(511, 16), (513, 16), (512, 15), (512, 17), (0, 0)] {
            let answer = both.call(walk, &plan, Lengths { result, record }, [7, 9]);
            let what = "1 before 18: not the answer that the rules name";
            both.expect(answer.code == 1, what, &plan, &answer);
        }
    }
}

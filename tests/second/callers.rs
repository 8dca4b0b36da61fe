//! The traffic record of 16 callers, walks that name their caller, by number or in a frame, and the choice between two frames.

use super::columns::{differing_columns, first_of};
use super::plans::{Layout, Walk};
use super::{number, refuse, Refusal};

pub const CALLERS: usize = super::CALLERS as usize;
/// A frame count, a hop count and a turn count for each.
pub const COUNTS: usize = 3 * CALLERS;
/// A count has 32 bits.
const MOST: u64 = (1 << 32) - 1;

/// What one caller has used.
#[derive(Clone, Copy)]
struct Used {
    frames: u64,
    hops: u64,
    turns: u64,
}

/// The traffic record.
pub struct Record([Used; CALLERS]);

/// A walk that was counted: where it led, and 1 and its first column, or 0 and 0.
pub struct CountedWalk {
    pub walk: Walk,
    pub column: [usize; 2],
}

/// What a frame's first three bytes say.
struct Head {
    goal: usize,
    caller: usize,
}

impl Record {
    /// The frame counts of all callers, then their hop counts, then their turn counts.
    pub fn of(counts: &[u32; COUNTS]) -> Record {
        let count = |row: usize, caller: usize| u64::from(counts[row * CALLERS + caller]);
        Record(std::array::from_fn(|caller| Used {
            frames: count(0, caller),
            hops: count(1, caller),
            turns: count(2, caller),
        }))
    }

    /// The counts in the same order.
    pub fn counts(&self) -> Vec<u32> {
        let rows: [fn(&Used) -> u64; 3] = [|used| used.frames, |used| used.hops, |used| used.turns];
        let row = |count: fn(&Used) -> u64| self.0.iter().map(move |used| count(used) as u32);
        rows.into_iter().flat_map(row).collect()
    }

    /// A walk of a caller: 12, 18, 14, 15.
    pub fn walk(
        &mut self,
        plan: &[u8],
        from: u32,
        goal: u32,
        caller: u32,
    ) -> Result<CountedWalk, Refusal> {
        let head = Head {
            goal: goal as usize,
            caller: caller as usize,
        };
        self.walk_headed(&Layout::new(plan)?, from as usize, head)
    }

    /// The walk of a frame: 12, 19, 18, 14, 15.
    pub fn walk_lent(
        &mut self,
        plan: &[u8],
        from: u32,
        frame: &[u8],
    ) -> Result<CountedWalk, Refusal> {
        let plan = Layout::new(plan)?;
        self.walk_headed(&plan, from as usize, Head::of(frame)?)
    }

    /// Only a walk that arrives is counted, for its caller alone; all counts stay where one of the two would pass its limit.
    fn walk_headed(
        &mut self,
        plan: &Layout,
        from: usize,
        head: Head,
    ) -> Result<CountedWalk, Refusal> {
        let Some(used) = self.0.get_mut(head.caller) else {
            return refuse(18);
        };
        if from.max(head.goal) >= plan.cards {
            return refuse(14);
        }
        let walk = plan.walk(from, head.goal);
        if walk.arrived {
            let raised = Used {
                frames: used.frames + 1,
                hops: used.hops + walk.met.len() as u64 - 1,
                ..*used
            };
            if raised.frames.max(raised.hops) > MOST {
                return refuse(15);
            }
            *used = raised;
        }
        let column = match walk.met[..] {
            [first, second, ..] => first_of(&differing_columns(plan, first, second)),
            _ => [0, 0],
        };
        Ok(CountedWalk { walk, column })
    }
}

impl Head {
    /// The destination, low byte first, and the caller: 19.
    fn of(frame: &[u8]) -> Result<Head, Refusal> {
        match frame {
            [_, _, caller, ..] => Ok(Head {
                goal: number(frame),
                caller: usize::from(*caller),
            }),
            _ => refuse(19),
        }
    }
}

/// Which of two waiting frames goes: 0 for the first, 1 for the second, or 19, 18, 15. Its caller has one turn more.
pub fn next_frame(frames: [&[u8]; 2], turns: &mut [u32]) -> Result<usize, Refusal> {
    let [first, second] = frames.map(Head::of);
    let callers = [first?.caller, second?.caller];
    if callers.iter().any(|&caller| caller >= CALLERS) {
        return refuse(18);
    }
    let (_, goes) = [0, 1]
        .map(|place| (turns[callers[place]], place))
        .into_iter()
        .min()
        .expect("two frames wait");
    let count = &mut turns[callers[goes]];
    match count.checked_add(1) {
        Some(more) => {
            *count = more;
            Ok(goes)
        }
        None => refuse(15),
    }
}

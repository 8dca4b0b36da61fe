//! The cases that the rules name of the choice between two waiting frames, and whole runs of choices.

use crate::drawn::MOST;
use crate::inner_both::{Answer, Both, Call, Name};
use crate::second::callers::{CALLERS, COUNTS};
use crate::stop;

/// How many choices a run has.
const RUN: usize = 8;

type Turns = [u32; CALLERS];

/// Two frames of four bytes between other bytes.
struct Waiting([u8; 11]);

impl Waiting {
    fn of([first, second]: [usize; 2]) -> Waiting {
        let [first, second] = [first as u8, second as u8];
        Waiting([16, 2, 0, first, 7, 16, 1, 0, second, 7, 16])
    }

    fn frames(&self) -> [&[u8]; 2] {
        self.cut([4, 4])
    }

    /// So many bytes of each.
    fn cut(&self, [first, second]: [usize; 2]) -> [&[u8]; 2] {
        [&self.0[1..][..first], &self.0[6..][..second]]
    }
}

pub fn check(both: &mut Both) {
    short_frames(both);
    callers(both);
    levels(both);
    shared_bytes(both);
    for refusals in [false, true] {
        runs(both, [0, 15], [0; CALLERS], RUN, refusals);
        runs(both, [8, 7], [MOST - 3; CALLERS], RUN, refusals);
    }
}

/// Frames of no to four bytes: 19, whatever the callers and the turns are, if either has fewer than three; then 18; then 15.
fn short_frames(both: &mut Both) {
    for lengths in pairs(&[0, 1, 2, 3, 4]) {
        for two in pairs(&[3, 5, 16]) {
            for count in [0, MOST] {
                let goes = match (lengths, two) {
                    _ if lengths.iter().any(|&length| length < 3) => Err(19),
                    _ if two.contains(&16) => Err(18),
                    _ if count == MOST => Err(15),
                    _ => Ok(0),
                };
                let waiting = Waiting::of(two);
                chooses(both, waiting.cut(lengths), [count; CALLERS], goes);
            }
        }
    }
}

/// Callers over 15 in either frame: 18, also where all turns are full.
fn callers(both: &mut Both) {
    for two in pairs(&[0, 15, 16, 17, 128, 255]) {
        for count in [0, MOST - 1, MOST] {
            let goes = match two {
                _ if two.iter().any(|&caller| caller > 15) => Err(18),
                _ if count == MOST => Err(15),
                _ => Ok(0),
            };
            chooses(both, Waiting::of(two).frames(), [count; CALLERS], goes);
        }
    }
}

/// Turns that are level or not, up to their limit; those of all other callers are full, or none.
fn levels(both: &mut Both) {
    let counts = [0, 1, 2, MOST - 2, MOST - 1, MOST];
    for two in [[3, 5], [5, 3], [0, 15], [15, 0]] {
        for [x, y] in pairs(&[0, 1, 2, 3, 4, 5]) {
            for others in [0, MOST] {
                let mut turns = [others; CALLERS];
                turns[two[0]] = counts[x];
                turns[two[1]] = counts[y];
                let goes = match x.min(y) {
                    5 => Err(15),
                    _ => Ok(usize::from(y < x)),
                };
                chooses(both, Waiting::of(two).frames(), turns, goes);
            }
        }
    }
}

/// Two frames of one caller, one frame twice, and frames that share bytes.
fn shared_bytes(both: &mut Both) {
    for (count, goes) in [(0, Ok(0)), (MOST - 1, Ok(0)), (MOST, Err(15))] {
        let waiting = Waiting::of([9, 9]);
        let [first, second] = waiting.frames();
        for frames in [[first, second], [first, first], [second, second]] {
            let mut turns = [4; CALLERS];
            turns[9] = count;
            chooses(both, frames, turns, goes);
        }
    }
    // callers 2 and 1 of frames that begin a byte apart
    let bytes = [9, 9, 2, 1, 9];
    let [first, second] = [&bytes[..4], &bytes[1..]];
    let mut turns = [4; CALLERS];
    turns[2] = 5;
    chooses(both, [first, second], turns, Ok(1));
    chooses(both, [second, first], turns, Ok(0));
    // the same bytes, longer and shorter
    let [long, short] = [&bytes[..5], &bytes[..3]];
    chooses(both, [long, short], turns, Ok(0));
    chooses(both, [short, long], turns, Ok(0));
}

fn pairs(items: &[usize]) -> Vec<[usize; 2]> {
    let pair = |&x: &usize| items.iter().map(move |&y| [x, y]);
    items.iter().flat_map(pair).collect()
}

fn choose(both: &mut Both, frames: [&[u8]; 2], turns: Turns) -> Answer {
    let mut traffic = [0; COUNTS];
    traffic[COUNTS - CALLERS..].copy_from_slice(&turns);
    let name = Name::NextFrame;
    let call = Call {
        traffic,
        frames,
        ..Call::new(name)
    };
    both.call(call, &[], name.lengths())
}

/// That very frame goes and its caller has a turn more, or the choice is refused.
fn chooses(both: &mut Both, frames: [&[u8]; 2], turns: Turns, goes: Result<usize, u32>) {
    let answer = choose(both, frames, turns);
    let mut after = turns;
    let (number, part) = match goes {
        Ok(goes) => {
            let [first, frame] = [frames[0], frames[goes]];
            after[usize::from(frame[2])] += 1;
            let offset = (frame.as_ptr() as usize).wrapping_sub(first.as_ptr() as usize);
            (0, (offset, frame.len()))
        }
        Err(number) => (number, (0, 0)),
    };
    let (given, left) = (answer.number, answer.lent.turns.items());
    if (given, answer.lent.part, left) != (number, Some(part), &after) {
        stop(&format!(
            "FAILED: a choice of {frames:02x?} was answered with {given}, {:?}, {left:?}, not {number}, {part:?}, {after:?}",
            answer.lent.part
        ));
    }
}

/// All runs of so many more choices between two callers: before each, either may be first. Their turns never differ by more than one,
/// and rise by one in all with each choice, until both are full. With refusals, a choice that is refused stands before each and
/// changes nothing.
fn runs(both: &mut Both, callers: [usize; 2], turns: Turns, choices: usize, refusals: bool) {
    if choices == 0 {
        return;
    }
    let [one, other] = callers;
    for two in [[one, other], [other, one]] {
        let waiting = Waiting::of(two);
        if refusals {
            let wrong = Waiting::of([two[0], CALLERS]);
            let (frames, number) = match choices % 3 {
                0 => (waiting.cut([2, 4]), 19),
                1 => (waiting.cut([4, 0]), 19),
                _ => (wrong.frames(), 18),
            };
            chooses(both, frames, turns, Err(number));
        }
        let answer = choose(both, waiting.frames(), turns);
        let all = |turns: &[u32]| u64::from(turns[one]) + u64::from(turns[other]);
        let (given, left) = (answer.number, answer.lent.turns.items());
        let full = all(&turns) == 2 * u64::from(MOST);
        let raised = all(left) == all(&turns) + u64::from(!full);
        let fair = left[one].abs_diff(left[other]) <= 1;
        if !fair || !raised || given != if full { 15 } else { 0 } {
            stop(&format!(
                "FAILED: a choice between {two:?} with turns {turns:?} was answered with {given}, {left:?}"
            ));
        }
        let after = std::array::from_fn(|caller| left[caller]);
        runs(both, callers, after, choices - 1, refusals);
    }
}

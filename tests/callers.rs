//! The walks of libtest_calls.a that name their caller, over slices. The counts of all callers are lent as three arrays of 16.

use crate::second::callers::{CALLERS, COUNTS};

extern "C" {
    pub fn test_walk_by_caller(
        plan: *const u8,
        plan_len: usize,
        from: u32,
        goal: u32,
        caller: u32,
        frames: *mut u32,
        hops: *mut u32,
        turns: *mut u32,
        met: *mut u16,
        met_len: usize,
        answer: *mut u32,
        answer_len: usize,
    ) -> u32;
    pub fn test_walk_lent(
        plan: *const u8,
        plan_len: usize,
        from: u32,
        frame: *const u8,
        frame_len: usize,
        frames: *mut u32,
        hops: *mut u32,
        turns: *mut u32,
        met: *mut u16,
        met_len: usize,
        answer: *mut u32,
        answer_len: usize,
    ) -> u32;
}

/// Where the frame counts of a record begin, its hop counts and its turn counts.
pub fn rows(record: *mut u32) -> [*mut u32; 3] {
    [0, 1, 2].map(|row| record.wrapping_add(row * CALLERS))
}

/// The number; 1 for arrived or 0 for stuck, the hops, 1 for a column or 0 for none, and the column. The counts of all callers begin at 0.
fn answered(walk: impl FnOnce([*mut u32; 3], &mut [u16], &mut [u32]) -> u32) -> (u32, [u32; 4]) {
    let (mut record, mut met, mut answer) = ([0; COUNTS], [0; 256], [0; 4]);
    let number = walk(rows(record.as_mut_ptr()), &mut met, &mut answer);
    (number, answer)
}

pub fn walk_by_caller(plan: &[u8], from: u32, goal: u32, caller: u32) -> (u32, [u32; 4]) {
    let (plan, long) = (plan.as_ptr(), plan.len());
    answered(|[fs, hs, ts], met, answer| unsafe {
        let (met, room) = (met.as_mut_ptr(), met.len());
        let (fields, count) = (answer.as_mut_ptr(), answer.len());
        test_walk_by_caller(
            plan, long, from, goal, caller, fs, hs, ts, met, room, fields, count,
        )
    })
}

/// The same of a frame, which has its destination and its caller in its first three bytes.
pub fn walk_lent(plan: &[u8], from: u32, frame: &[u8]) -> (u32, [u32; 4]) {
    let (plan, long) = (plan.as_ptr(), plan.len());
    let (frame, size) = (frame.as_ptr(), frame.len());
    answered(|[fs, hs, ts], met, answer| unsafe {
        let (met, room) = (met.as_mut_ptr(), met.len());
        let (fields, count) = (answer.as_mut_ptr(), answer.len());
        test_walk_lent(
            plan, long, from, frame, size, fs, hs, ts, met, room, fields, count,
        )
    })
}

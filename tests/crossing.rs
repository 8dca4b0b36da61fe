//! The step and the walk of libtest_calls.a, with the columns that they cross, over slices.

extern "C" {
    pub fn test_step_frame(
        plan: *const u8,
        plan_len: usize,
        from: u32,
        goal: u32,
        answer: *mut u32,
        answer_len: usize,
    ) -> u32;
    pub fn test_walk_frame(
        plan: *const u8,
        plan_len: usize,
        from: u32,
        goal: u32,
        frames: u32,
        hops: u32,
        met: *mut u16,
        met_len: usize,
        answer: *mut u32,
        answer_len: usize,
    ) -> u32;
}

/// The number; the outcome, the link and the far card; 1 for a column or 0 for none, and the column.
pub fn step_frame(plan: &[u8], from: u32, goal: u32) -> (u32, [u32; 5]) {
    let mut answer = [0; 5];
    let number = unsafe {
        test_step_frame(
            plan.as_ptr(),
            plan.len(),
            from,
            goal,
            answer.as_mut_ptr(),
            answer.len(),
        )
    };
    (number, answer)
}

/// The number; 1 for arrived or 0 for stuck, the hops and the counts, which begin at 0; 1 for a column or 0 for none, and the column.
pub fn walk_frame(plan: &[u8], from: u32, goal: u32) -> (u32, [u32; 6]) {
    let (mut met, mut answer) = ([0; 256], [0; 6]);
    let number = unsafe {
        test_walk_frame(
            plan.as_ptr(),
            plan.len(),
            from,
            goal,
            0,
            0,
            met.as_mut_ptr(),
            met.len(),
            answer.as_mut_ptr(),
            answer.len(),
        )
    };
    (number, answer)
}

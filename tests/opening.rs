//! The call of libtest_calls.a that reads a plan with its sum of hops, as opening does, over a slice.

extern "C" {
    pub fn test_read_summed(
        plan: *const u8,
        plan_len: usize,
        answer: *mut u32,
        answer_len: usize,
    ) -> u32;
}

/// The number; the cards, links and columns, and the sum.
pub fn read_summed(plan: &[u8]) -> (u32, [u32; 4]) {
    let mut answer = [0; 4];
    let number =
        unsafe { test_read_summed(plan.as_ptr(), plan.len(), answer.as_mut_ptr(), answer.len()) };
    (number, answer)
}

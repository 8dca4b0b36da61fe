//! The conference call of libtest_calls.a, over a slice.

extern "C" {
    pub fn test_conference_card(
        plan: *const u8,
        plan_len: usize,
        a: u32,
        b: u32,
        c: u32,
        answer: *mut u32,
        answer_len: usize,
    ) -> u32;
}

/// The refusal's number, 1 for a card or 0 for none, and the card.
pub fn conference_card(plan: &[u8], [a, b, c]: [u32; 3]) -> [u32; 3] {
    let mut answer = [0; 2];
    let number = unsafe {
        test_conference_card(
            plan.as_ptr(),
            plan.len(),
            a,
            b,
            c,
            answer.as_mut_ptr(),
            answer.len(),
        )
    };
    [number, answer[0], answer[1]]
}

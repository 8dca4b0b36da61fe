//! The calls of libtest_calls.a that add a card and take the last one off, over slices.

use crate::second::PLAN_BYTES;

extern "C" {
    pub fn test_add_card(
        plan: *const u8,
        plan_len: usize,
        total: u32,
        card: u32,
        output: *mut u8,
        output_len: usize,
        answer: *mut u32,
        answer_len: usize,
    ) -> u32;
    pub fn test_take_card_off(
        plan: *const u8,
        plan_len: usize,
        total: u32,
        output: *mut u8,
        output_len: usize,
        answer: *mut u32,
        answer_len: usize,
    ) -> u32;
}

/// The number, and the new plan's length and sum.
pub type Changed = (u32, [u32; 2]);

pub fn add_card(plan: &[u8], total: u32, card: u32, output: &mut [u8; PLAN_BYTES]) -> Changed {
    let mut answer = [0; 2];
    let number = unsafe {
        test_add_card(
            plan.as_ptr(),
            plan.len(),
            total,
            card,
            output.as_mut_ptr(),
            output.len(),
            answer.as_mut_ptr(),
            answer.len(),
        )
    };
    (number, answer)
}

pub fn take_card_off(plan: &[u8], total: u32, output: &mut [u8; PLAN_BYTES]) -> Changed {
    let mut answer = [0; 2];
    let number = unsafe {
        test_take_card_off(
            plan.as_ptr(),
            plan.len(),
            total,
            output.as_mut_ptr(),
            output.len(),
            answer.as_mut_ptr(),
            answer.len(),
        )
    };
    (number, answer)
}

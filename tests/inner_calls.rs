//! The calls of libtest_calls.a, over slices.

use crate::callers::{rows, test_walk_by_caller, test_walk_lent};
use crate::carried::{
    test_add_carried, test_address_carried, test_address_refusal_carried, test_conference_carried,
    test_read_carried, test_step_carried, test_take_off_carried, test_walk_carried, Part,
};
use crate::conference::test_conference_card;
use crate::crossing::{test_step_frame, test_walk_frame};
use crate::inner_both::{Call, Kind, Name};
use crate::inner_lent::Lents;
use crate::last_card::{test_add_card, test_take_card_off};
use crate::opening::test_read_summed;
use crate::second::callers::{CALLERS, COUNTS};

extern "C" {
    fn test_plan_rack(
        file: *const u8,
        file_len: usize,
        words: *mut u64,
        words_len: usize,
        hops: *mut u8,
        hops_len: usize,
        answer: *mut u32,
        answer_len: usize,
    ) -> u32;
    fn test_listing_text(
        file: *const u8,
        file_len: usize,
        text: *mut u8,
        text_len: usize,
        answer: *mut u32,
        answer_len: usize,
    ) -> u32;
    fn test_card_address(plan: *const u8, plan_len: usize, card: u32, part: *mut Part) -> u32;
    fn test_plan_places(
        plan: *const u8,
        plan_len: usize,
        a: u32,
        b: u32,
        answer: *mut u32,
        answer_len: usize,
    ) -> u32;
    fn test_next_frame(
        first: *const u8,
        first_len: usize,
        second: *const u8,
        second_len: usize,
        turns: *mut u32,
        part: *mut Part,
    ) -> u32;
    fn test_opened_step(
        bytes: *const u8,
        bytes_len: usize,
        from: u32,
        goal: u32,
        answer: *mut u32,
        answer_len: usize,
    ) -> u32;
    fn test_opened_walk(
        bytes: *const u8,
        bytes_len: usize,
        from: u32,
        goal: u32,
        caller: u32,
        frames: *mut u32,
        hops: *mut u32,
        turns: *mut u32,
        met: *mut u16,
        met_len: usize,
        answer: *mut u32,
        answer_len: usize,
    ) -> u32;
}

/// The library's answer.
pub fn ask(call: &Call, input: &[u8], lent: &mut Lents) -> u32 {
    match call.name.kind() {
        Kind::Plan | Kind::Listing => plan_or_list(call.name, input, lent),
        Kind::Address => address(call, input, lent),
        Kind::Sizes | Kind::Summed | Kind::Places | Kind::Step | Kind::Conference => {
            fields(call, input, lent)
        }
        Kind::Walk => walk(call, input, lent),
        Kind::CallerWalk => caller_walk(call, input, lent),
        Kind::Choice => choice(call, lent),
        Kind::NewPlan => new_plan(call, input, lent),
    }
}

fn not_of_its_kind(name: Name) -> ! {
    panic!("{name:?} is of another kind")
}

fn plan_or_list(name: Name, file: &[u8], lent: &mut Lents) -> u32 {
    let (start, long) = (file.as_ptr(), file.len());
    let (words, words_len) = lent.words.lend();
    let (bytes, bytes_len) = lent.bytes.lend();
    let (fields, count) = lent.fields.lend();
    unsafe {
        match name {
            Name::PlanRack => test_plan_rack(
                start, long, words, words_len, bytes, bytes_len, fields, count,
            ),
            Name::ListingText => test_listing_text(start, long, bytes, bytes_len, fields, count),
            name => not_of_its_kind(name),
        }
    }
}

/// A part before it is handed out: one that no call hands out.
fn no_part() -> Part {
    let nowhere = &[0u8];
    Part {
        start: nowhere.as_ptr(),
        length: nowhere.len(),
    }
}

/// A part is told by how far behind a first byte it begins, and by its length.
fn place(part: Part, first: *const u8) -> (usize, usize) {
    let offset = (part.start as usize).wrapping_sub(first as usize);
    (offset, part.length)
}

fn address(call: &Call, plan: &[u8], lent: &mut Lents) -> u32 {
    let (start, long) = (plan.as_ptr(), plan.len());
    let ([n, m, k], total, card) = (call.sizes, call.total, call.from);
    let mut part = no_part();
    let number = unsafe {
        match call.name {
            Name::CardAddress => test_card_address(start, long, card, &mut part),
            Name::AddressCarried => {
                test_address_carried(start, long, n, m, k, total, card, &mut part);
                test_address_refusal_carried(start, long, n, m, k, total, card)
            }
            name => not_of_its_kind(name),
        }
    };
    lent.part = Some(place(part, start));
    number
}

/// Calls that are lent nothing besides the answer's fields.
fn fields(call: &Call, plan: &[u8], lent: &mut Lents) -> u32 {
    let (start, long) = (plan.as_ptr(), plan.len());
    let ([n, m, k], total) = (call.sizes, call.total);
    let [a, b, c] = [call.from, call.goal, call.third];
    let (fields, count) = lent.fields.lend();
    unsafe {
        match call.name {
            Name::ReadSummed => test_read_summed(start, long, fields, count),
            Name::ReadCarried => test_read_carried(start, long, n, m, k, total, fields, count),
            Name::PlanPlaces => test_plan_places(start, long, a, b, fields, count),
            Name::StepFrame => test_step_frame(start, long, a, b, fields, count),
            Name::StepCarried => test_step_carried(start, long, n, m, k, a, b, fields, count),
            Name::OpenedStep => test_opened_step(start, long, a, b, fields, count),
            Name::ConferenceCard => test_conference_card(start, long, a, b, c, fields, count),
            Name::ConferenceCarried => {
                test_conference_carried(start, long, n, m, k, total, a, b, c, fields, count)
            }
            name => not_of_its_kind(name),
        }
    }
}

fn walk(call: &Call, plan: &[u8], lent: &mut Lents) -> u32 {
    let (start, long) = (plan.as_ptr(), plan.len());
    let (Call { from, goal, .. }, [frames, hops]) = (*call, call.counts);
    let (met, met_len) = lent.met.lend();
    let (fields, count) = lent.fields.lend();
    unsafe {
        match call.name {
            Name::WalkFrame => test_walk_frame(
                start, long, from, goal, frames, hops, met, met_len, fields, count,
            ),
            name => not_of_its_kind(name),
        }
    }
}

/// The record is lent without the number of its counts: there are always 48.
fn caller_walk(call: &Call, plan: &[u8], lent: &mut Lents) -> u32 {
    let (start, long) = (plan.as_ptr(), plan.len());
    let (a, b, u, [n, m, k]) = (call.from, call.goal, call.caller, call.sizes);
    let (frame, frame_len) = (call.frames[0].as_ptr(), call.frames[0].len());
    let (record, places) = lent.traffic.lend();
    assert_eq!(places, COUNTS);
    let [fs, hs, ts] = rows(record);
    let (met, met_len) = lent.met.lend();
    let (fields, count) = lent.fields.lend();
    unsafe {
        match call.name {
            Name::WalkByCaller => test_walk_by_caller(
                start, long, a, b, u, fs, hs, ts, met, met_len, fields, count,
            ),
            Name::WalkLent => test_walk_lent(
                start, long, a, frame, frame_len, fs, hs, ts, met, met_len, fields, count,
            ),
            Name::WalkCarried => test_walk_carried(
                start, long, n, m, k, a, b, u, fs, hs, ts, met, met_len, fields, count,
            ),
            Name::OpenedWalk => test_opened_walk(
                start, long, a, b, u, fs, hs, ts, met, met_len, fields, count,
            ),
            name => not_of_its_kind(name),
        }
    }
}

/// The turns are lent without their number: there are always 16.
fn choice(call: &Call, lent: &mut Lents) -> u32 {
    let [first, second] = call.frames;
    let (first, first_len) = (first.as_ptr(), first.len());
    let (second, second_len) = (second.as_ptr(), second.len());
    let (turns, count) = lent.turns.lend();
    assert_eq!(count, CALLERS);
    let mut part = no_part();
    let number = unsafe { test_next_frame(first, first_len, second, second_len, turns, &mut part) };
    lent.part = Some(place(part, first));
    number
}

fn new_plan(call: &Call, plan: &[u8], lent: &mut Lents) -> u32 {
    let (start, long) = (plan.as_ptr(), plan.len());
    let ([n, m, k], total, card) = (call.sizes, call.total, call.from);
    let (output, room) = lent.bytes.lend();
    let (fields, count) = lent.fields.lend();
    unsafe {
        match call.name {
            Name::AddCard => test_add_card(start, long, total, card, output, room, fields, count),
            Name::TakeCardOff => {
                test_take_card_off(start, long, total, output, room, fields, count)
            }
            Name::AddCarried => test_add_carried(
                start, long, n, m, k, total, card, output, room, fields, count,
            ),
            Name::TakeOffCarried => {
                test_take_off_carried(start, long, n, m, k, total, output, room, fields, count)
            }
            name => not_of_its_kind(name),
        }
    }
}

//! Counts the instructions of the C calls, of steps and walks with their columns, of conferences, of opening, and of a card more or less,
//! on what the benchmark times.
//! `cost` makes the calls, for callgrind to count.
//! `cost FOLDER LIMITS` reads what was counted and holds it to a table of limits; with `--set` it writes the table.

mod calls;
#[allow(dead_code)]
mod carried;
mod conference;
mod cost_counts;
mod cost_table;
mod crossing;
#[path = "../bench/growing.rs"]
mod growing;
mod last_card;
#[allow(dead_code)]
#[path = "../bench/measured.rs"]
mod measured;
mod opening;
#[allow(dead_code)]
mod racks;
#[allow(dead_code)]
mod second;

use carried::Opened;
use cost_counts::read_counts;
use cost_table::{check, set};
use growing::{Growing, Output};
use last_card::Changed;
use measured::{Frame, Measured};
use second::last_card::SummedPlan;
use second::{MET_BYTES, PLAN_BYTES, RECORD_BYTES};

/// What a call is made for: the columns of the table, and calls that read the plan and do little more, with and without its sum.
#[derive(Clone, Copy)]
enum Kind {
    Planning,
    Reading,
    Opening,
    Step,
    Walk,
    StepFrame,
    WalkFrame,
    Conference,
    AddCard,
    TakeOff,
    RefusedConference,
    RefusedAdding,
    ReadCarried,
    AddressCarried,
    ConferenceCarried,
}

impl Kind {
    fn call(self) -> &'static str {
        match self {
            Kind::Planning => "jolvente_write_plan",
            Kind::Reading => "jolvente_read_plan",
            Kind::Opening => "test_read_summed",
            Kind::Step | Kind::Walk => "jolvente_walk",
            Kind::StepFrame => "test_step_frame",
            Kind::WalkFrame => "test_walk_frame",
            Kind::Conference | Kind::RefusedConference => "test_conference_card",
            Kind::AddCard | Kind::RefusedAdding => "test_add_card",
            Kind::TakeOff => "test_take_card_off",
            Kind::ReadCarried => "test_read_carried",
            Kind::AddressCarried => "test_address_carried",
            Kind::ConferenceCarried => "test_conference_carried",
        }
    }
}

fn stop(message: &str) -> ! {
    eprintln!("tests/cost: {message}");
    std::process::exit(1)
}

fn main() {
    let words: Vec<String> = std::env::args().skip(1).collect();
    let words: Vec<&str> = words.iter().map(String::as_str).collect();
    let made = make_calls();
    match words[..] {
        [] => {}
        [folder, limits] => check(&read_counts(folder, &made), limits),
        [folder, limits, "--set"] => set(&read_counts(folder, &made), limits),
        _ => stop("use: tests/cost [--set]"),
    }
}

/// Calls that were made, in their order: the rows and columns that they count for.
type Made = Vec<(&'static str, Kind)>;

/// Makes every call that is counted.
fn make_calls() -> Made {
    let mut made = Made::new();
    for measured in measured::racks_of_256() {
        let plan = measured.plan();
        made.push((measured.name, Kind::Planning));
        let Some(plan) = plan else {
            let plan = measured.plan_without_columns();
            read(measured.name, &plan, 13, &mut made);
            continue;
        };
        read(measured.name, &plan, 0, &mut made);
        open(measured.name, &plan, &mut made);
        let (steps, walks) = (measured.worst_steps(&plan), measured.longest_walks(&plan));
        walk(Kind::Step, &steps, &mut made);
        walk(Kind::Walk, &walks, &mut made);
        step_frame(&steps, &mut made);
        walk_frame(&walks, &mut made);
        confer(&measured, &plan, &mut made);
        carry(&measured, &plan, &mut made);
    }
    for steps in [vec![measured::stuck_at_hub()], measured::tangles_in_turn()] {
        walk(Kind::Step, &steps, &mut made);
        step_frame(&steps, &mut made);
    }
    let walks = [measured::chain_behind_others()];
    walk(Kind::Walk, &walks, &mut made);
    walk_frame(&walks, &mut made);
    for growing in growing::racks_of_255() {
        let Growing { less, more, .. } = &growing;
        let (add, take_off) = (Growing::add, Growing::take_off);
        change(&growing, Kind::AddCard, [less, more], add, &mut made);
        change(&growing, Kind::TakeOff, [more, less], take_off, &mut made);
    }
    made
}

fn read(name: &'static str, plan: &[u8], number: u32, made: &mut Made) {
    let code = calls::read_plan(plan, &mut [0; RECORD_BYTES]);
    made.push((name, Kind::Reading));
    assert_eq!(code, number, "reading: {name}");
}

/// The sum is the second implementation's.
fn open(name: &'static str, plan: &[u8], made: &mut Made) {
    let (number, [.., total]) = opening::read_summed(plan);
    made.push((name, Kind::Opening));
    let right = second::totals::total_inside(plan);
    assert_eq!((number, Some(total)), (0, right), "opening: {name}");
}

fn walk(kind: Kind, frames: &[Frame], made: &mut Made) {
    for frame in frames {
        let mut record = [0; RECORD_BYTES];
        let (from, to) = frame.ends;
        let code = calls::walk(&frame.plan, from, to, 0, &mut [0; MET_BYTES], &mut record);
        made.push((frame.name, kind));
        let number = |at: usize| u32::from_le_bytes([0, 1, 2, 3].map(|byte| record[at + byte]));
        let answer = [number(0), number(4)];
        assert_eq!((code, answer), (0, frame.answer), "walk: {}", frame.name);
    }
}

/// A frame that has hops crosses a column.
fn step_frame(frames: &[Frame], made: &mut Made) {
    for frame in frames {
        let (number, answer) = crossing::step_frame(&frame.plan, frame.ends.0, frame.ends.1);
        made.push((frame.name, Kind::StepFrame));
        let crosses = u32::from(frame.answer[1] > 0);
        let given = (number, u32::from(answer[0] == 2), answer[3]);
        assert_eq!(given, (0, crosses, crosses), "step: {}", frame.name);
    }
}

fn walk_frame(frames: &[Frame], made: &mut Made) {
    for frame in frames {
        let (number, answer) = crossing::walk_frame(&frame.plan, frame.ends.0, frame.ends.1);
        made.push((frame.name, Kind::WalkFrame));
        let [arrived, hops] = frame.answer;
        let given = (number, [answer[0], answer[1], answer[4]]);
        let expected = (0, [arrived, hops, u32::from(hops > 0)]);
        assert_eq!(given, expected, "walk: {}", frame.name);
    }
}

/// Refused with 14, the call reads the plan and does no more (`cost_counts`); so what a conference takes beside reading is
/// the difference.
fn confer(measured: &Measured, plan: &[u8], made: &mut Made) {
    let worst = measured.worst_conference(plan);
    for (kind, three, answer) in [
        (Kind::RefusedConference, worst.refused, [14, 0, 0]),
        (Kind::Conference, worst.three, worst.answer),
    ] {
        made.push((measured.name, kind));
        let given = conference::conference_card(plan, three);
        assert_eq!(given, answer, "conference: {}", measured.name);
    }
}

/// Calls on the opened plan that read it and test its sum; the conference is refused with 14.
fn carry(measured: &Measured, plan: &[u8], made: &mut Made) {
    let name = measured.name;
    let sizes = [0, 2, 4].map(|at| u32::from(plan[at]) + 256 * u32::from(plan[at + 1]));
    let total = second::totals::total_inside(plan);
    let opened = Opened {
        bytes: plan,
        sizes,
        total: total.expect("the sum of an accepted rack"),
    };
    made.push((name, Kind::ReadCarried));
    assert_eq!(opened.read(), 0, "reading: {name}");
    made.push((name, Kind::AddressCarried));
    let width = opened.address(sizes[0] - 1).len();
    assert_eq!(width, sizes[2].div_ceil(8) as usize, "address: {name}");
    made.push((name, Kind::ConferenceCarried));
    let given = opened.conference(measured.worst_conference(plan).refused);
    assert_eq!(given, [14, 0, 0], "conference: {name}");
}

type Change = fn(&Growing, &mut Output) -> Changed;

/// As of a conference, what the call takes beside reading and the test of the sum is the difference.
fn change(
    growing: &Growing,
    kind: Kind,
    [old, new]: [&SummedPlan; 2],
    call: Change,
    made: &mut Made,
) {
    let (name, output) = (growing.name, &mut [0; PLAN_BYTES]);
    read(name, &old.file, 0, made);
    open(name, &old.file, made);
    made.push((name, Kind::RefusedAdding));
    let refused = growing::refused(old, output);
    assert_eq!(refused, (14, [0; 2]), "refused: {name}");
    made.push((name, kind));
    let changed = call(growing, output);
    growing::check(name, changed, output, new);
}

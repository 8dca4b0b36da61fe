//! Compares the C calls with the second implementation: `compare [SEED] [ROUNDS]`.
//! A round plans a rack, every other time with links doubled, reads and walks its plan, and tries faulty files and wrong buffers too.

mod both;
mod calls;
mod drawn;
mod faults;
mod named;
mod named_callers;
mod properties;
mod racks;
#[allow(dead_code)]
mod second;
mod twins;

use both::{Answer, Both, Call, Lengths, NUMBERS};
use drawn::{some_card, some_count, some_length, MOST};
use faults::{plans, wirings};
use racks::kinds::of_round;
use racks::{Rack, Rng};
use second::CALLERS;
use twins::Twins;

const SEED: u64 = 20_260_115;
const ROUNDS: u64 = 4_000;
const FEWEST_CALLS: u64 = 20_000;
/// The most cards for the slow test of whole sides.
const SMALL: usize = 14;
/// The calls, and the numbers that each can be answered with.
const ANSWERED: [(&str, &[usize]); 3] = [
    ("write_plan", &[0, 1, 2, 3, 4, 5, 6, 7, 8, 9, 10, 11]),
    ("read_plan", &[0, 1, 12, 13]),
    ("walk", &[0, 1, 12, 14, 15, 18]),
];

fn main() {
    let mut numbers = std::env::args()
        .skip(1)
        .map(|text| match text.parse::<u64>() {
            Ok(number) => number,
            Err(_) => stop(&format!(
                "{text} is not a number. Use: compare [SEED] [ROUNDS]"
            )),
        });
    let seed = numbers.next().unwrap_or(SEED);
    let given_rounds = numbers.next();
    let rounds = given_rounds.unwrap_or(ROUNDS);
    println!("seed {seed}, {rounds} rounds");

    let mut cases = Both::new(seed);
    named::check(&mut cases);
    named_callers::check(&mut cases);
    println!("named cases: {} calls agree", cases.calls());

    let mut both = Both::new(seed);
    let mut rng = Rng::new(seed);
    let mut twins = Twins::default();
    for round in 0..rounds {
        both.round = round;
        run_round(&mut both, &mut rng, &mut twins);
    }
    report(&both);
    twins.report();
    if given_rounds.is_none() {
        check_reach(&both, &twins);
    }
}

fn stop(message: &str) -> ! {
    println!("{message}");
    std::process::exit(1)
}

fn report(both: &Both) {
    println!("rounds: {} calls agree", both.calls());
    for ((call, _), seen) in ANSWERED.iter().zip(&both.seen) {
        let counts = seen.iter().enumerate().filter(|(_, &count)| count > 0);
        let counts: Vec<String> = counts
            .map(|(number, count)| format!("{number}: {count}"))
            .collect();
        println!(
            "{call}: {} calls, by number {}",
            seen.iter().sum::<u64>(),
            counts.join(", ")
        );
    }
}

/// The rounds must have met every number that a call can be answered with and no other, doubled racks of each kind, and be many.
fn check_reach(both: &Both, twins: &Twins) {
    for ((call, numbers), seen) in ANSWERED.iter().zip(&both.seen) {
        for number in 0..NUMBERS {
            if numbers.contains(&number) != (seen[number] > 0) {
                stop(&format!(
                    "FAILED: {call} was answered with {number} {} times",
                    seen[number]
                ));
            }
        }
    }
    if !twins.complete() {
        stop("FAILED: never were links doubled with columns in one of their orders, or in a rack refused with 9, 10 or 11");
    }
    if both.calls() < FEWEST_CALLS {
        stop(&format!(
            "FAILED: fewer than {FEWEST_CALLS} calls were made"
        ));
    }
}

fn run_round(both: &mut Both, rng: &mut Rng, twins: &mut Twins) {
    let (shape, twice) = of_round(both.round);
    let mut rack = (shape.make)(rng);
    if rng.below(8) > 0 {
        rack = rack.shuffled(rng);
    }
    if twice {
        let doubled = rack.doubled(rng);
        twins.compare(both, &rack, &doubled);
        rack = doubled.rack;
    }
    let plan = plan_rack(both, &rack, shape.number);
    if let Some(plan) = &plan {
        follow_plan(both, rng, plan, 24);
        for _ in 0..3 {
            let damaged = plans::damaged_plan(rng, plan);
            follow_plan(both, rng, &damaged, 5);
        }
    }
    for _ in 0..3 {
        let faulty = wirings::faulty_wiring(rng, &rack);
        let answer = both.write_plan(&faulty.wiring);
        let right = faulty.number.is_none_or(|number| answer.number() == number);
        both.expect(
            right,
            "not the number of the fault",
            &faulty.wiring,
            &answer,
        );
        wrong_lengths(both, rng, &[Call::WritePlan], &faulty.wiring);
    }
    let made_up = plans::made_up_plan(rng);
    follow_plan(both, rng, &made_up, 12);
    wrong_lengths(both, rng, &[Call::WritePlan], &rack.bytes());
    let file = plan.filter(|_| rng.below(2) == 0).unwrap_or(made_up);
    let walk = Call::Walk {
        from: some_card(rng, &file),
        to: some_card(rng, &file),
        caller: some_caller(rng),
    };
    wrong_lengths(both, rng, &[Call::ReadPlan, walk], &file);
}

/// Plans a well-formed rack and tests the answer. Gives the plan of an accepted rack.
fn plan_rack(both: &mut Both, rack: &Rack, number: Option<u32>) -> Option<Vec<u8>> {
    let wiring = rack.bytes();
    let answer = both.write_plan(&wiring);
    let right = number.is_none_or(|number| answer.number() == number);
    both.expect(
        right,
        "not the number of the rack's shape",
        &wiring,
        &answer,
    );
    if rack.cards <= SMALL {
        let right = answer.code == properties::answer(rack);
        both.expect(right, "not the answer by whole sides", &wiring, &answer);
    }
    if answer.code != 0 {
        return None;
    }
    let [used, ..] = answer.record();
    let (plan, rest) = answer.result().split_at(used as usize);
    let fault = properties::plan_fault(rack, plan);
    both.expect(fault.is_none(), fault.unwrap_or_default(), &wiring, &answer);
    both.expect(
        rest.iter().all(|&byte| byte == 0),
        "bytes behind the plan are not zero",
        &wiring,
        &answer,
    );
    let read = both.read_plan(plan);
    both.expect(read.code == 0, "a written plan is not read", plan, &read);
    Some(plan.to_vec())
}

/// Mostly one of the callers, at times a number beyond them.
fn some_caller(rng: &mut Rng) -> u32 {
    match rng.below(16) {
        0 => rng.pick(&[CALLERS, 255, 256, 65_536, MOST]),
        _ => rng.draw() as u32 % CALLERS,
    }
}

/// Reads a plan, sound or not, and walks it between some cards, for some callers.
fn follow_plan(both: &mut Both, rng: &mut Rng, plan: &[u8], walks: usize) {
    let sound = both.read_plan(plan).code == 0;
    let rack = sound.then(|| plans::plan_rack(plan));
    let hops = rack.as_ref().map(properties::hops);
    for _ in 0..walks {
        let ends = [some_card(rng, plan), some_card(rng, plan)];
        let (caller, known) = (some_caller(rng), rng.draw() as u32 % CALLERS);
        let counts = [some_count(rng), some_count(rng)];
        let answer = both.walk(plan, ends, caller, counts);
        let free = both.walk(plan, ends, known, [0, 0]);
        let unknown = caller >= CALLERS && free.code != 12;
        both.expect(
            unknown == (answer.code == 18),
            "not the limit of the callers",
            plan,
            &answer,
        );
        if let (Some(rack), Some(hops), 0) = (&rack, &hops, free.code) {
            let fewest = hops[ends[0] as usize][ends[1] as usize];
            check_frame(both, plan, rack, ends, fewest, &free);
            let fits = counts[0] < MOST && counts[1] <= MOST - fewest;
            both.expect(
                unknown || fits == (answer.code == 0),
                "not the limit of the counts",
                plan,
                &answer,
            );
        }
        if free.code == 0 {
            count_limits(both, plan, ends, known, free.record());
        }
    }
}

/// A frame on a sound plan, with counts that begin at 0, arrives by the fewest links.
fn check_frame(both: &Both, plan: &[u8], rack: &Rack, ends: [u32; 2], fewest: u32, free: &Answer) {
    let [from, to] = ends.map(|card| card as usize);
    let right = free.record() == [1, fewest, 1, fewest]
        && properties::is_shortest(rack, fewest, &free.met(), from, to);
    both.expect(
        right,
        "a frame did not arrive by the fewest links",
        plan,
        free,
    );
}

/// Repeats a walk that was made, with the caller's counts at their limits.
fn count_limits(both: &mut Both, plan: &[u8], ends: [u32; 2], caller: u32, made: [u32; 4]) {
    let [arrived, hops, ..] = made;
    let stuck = arrived == 0;
    let just = both.walk(plan, ends, caller, [MOST - 1, MOST - hops]);
    both.expect(just.code == 0, "counts that fit are refused", plan, &just);
    let frames = both.walk(plan, ends, caller, [MOST, 0]);
    both.expect(
        stuck == (frames.code == 0),
        "not the limit of the frames",
        plan,
        &frames,
    );
    if hops > 0 {
        let total = both.walk(plan, ends, caller, [0, MOST - hops + 1]);
        both.expect(
            stuck == (total.code == 0),
            "not the limit of the hops",
            plan,
            &total,
        );
    }
}

/// Makes calls with at least one buffer of a wrong length; 1 comes before every other number.
fn wrong_lengths(both: &mut Both, rng: &mut Rng, calls: &[Call], input: &[u8]) {
    for &call in calls {
        let right = call.lengths();
        let mut lengths = right;
        while lengths == right {
            lengths = Lengths {
                result: some_length(rng, right.result),
                record: some_length(rng, right.record),
            };
        }
        let counts = [some_count(rng), some_count(rng)];
        let answer = both.call(call, input, lengths, counts);
        both.expect(answer.code == 1, "a wrong length is not 1", input, &answer);
    }
}

//! Compares the calls of libtest_calls.a with the second implementation: `inner [SEED] [ROUNDS]`.
//! A round plans and lists a rack, every other time with links doubled, and faulty files, makes calls on its plan, on damaged ones and on
//! one made up, chooses between frames, steps over the rack's links, lets its cards confer, sums its hops up, and hangs a card on them.

#[allow(dead_code)]
mod callers;
#[allow(dead_code)]
mod carried;
#[allow(dead_code)]
mod conference;
#[allow(dead_code)]
mod crossing;
mod drawn;
#[allow(dead_code)]
mod faults;
mod inner_both;
mod inner_callers;
mod inner_calls;
mod inner_changes;
mod inner_counted;
mod inner_drawn;
mod inner_lent;
mod inner_named;
mod inner_named_totals;
mod inner_named_turns;
mod inner_named_walks;
mod inner_reading;
mod inner_second;
mod inner_totals;
mod inner_twins;
#[allow(dead_code)]
mod last_card;
#[allow(dead_code)]
mod opening;
#[allow(dead_code)]
mod racks;
#[allow(dead_code)]
mod second;

use drawn::{some_card, some_count};
use faults::{plans, wirings};
use inner_both::{Both, Call, Name, NAMES};
use inner_changes::{change_damaged, change_plan};
use inner_drawn::{some_caller, some_frame, some_lengths, some_sizes, some_total, some_traffic};
use inner_totals::sum_up;
use inner_twins::{follow_links, plan_doubled};
use racks::kinds::of_round;
use racks::Rng;
use second::columns::column_numbers;
use second::planner::Wiring;
use second::totals::total_inside;

const SEED: u64 = 20_261_116;
const ROUNDS: u64 = 1_200;
const FEWEST_CALLS: u64 = 300_000;
/// The most cards of a rack of which all threes confer.
const SMALL: usize = 14;
/// How many links of a rack are stepped over.
const CROSSED: usize = 60;

fn main() {
    let mut numbers = std::env::args()
        .skip(1)
        .map(|text| match text.parse::<u64>() {
            Ok(number) => number,
            Err(_) => stop(&format!(
                "{text} is not a number. Use: inner [SEED] [ROUNDS]"
            )),
        });
    let seed = numbers.next().unwrap_or(SEED);
    let given_rounds = numbers.next();
    let rounds = given_rounds.unwrap_or(ROUNDS);
    let mut cases = Both::new(seed);
    inner_named::check(&mut cases);
    inner_named_totals::check(&mut cases);
    inner_named_walks::check(&mut cases);
    inner_named_turns::check(&mut cases);
    inner_twins::check(&mut cases);
    println!("named cases: {} calls agree", cases.calls());

    let mut both = Both::new(seed);
    let mut rng = Rng::new(seed);
    for round in 0..rounds {
        both.round = round;
        run_round(&mut both, &mut rng);
    }
    report(&both, rounds);
    if given_rounds.is_none() {
        check_reach(&both);
    }
}

fn stop(message: &str) -> ! {
    println!("{message}");
    std::process::exit(1)
}

fn report(both: &Both, rounds: u64) {
    println!("inner: {rounds} rounds, {} calls agree", both.calls());
    for name in NAMES {
        let seen = both.seen[name as usize].iter().enumerate();
        let counts: Vec<String> = seen
            .filter(|(_, &count)| count > 0)
            .map(|(number, count)| format!("{number}: {count}"))
            .collect();
        println!("{name:?} by number {}", counts.join(", "));
    }
    both.counted.report();
}

/// Every number that a call can be answered with was met and no other, and each kind of answer that is counted.
fn check_reach(both: &Both) {
    for name in NAMES {
        for (number, &count) in both.seen[name as usize].iter().enumerate() {
            if name.numbers().contains(&number) != (count > 0) {
                stop(&format!(
                    "FAILED: {name:?} was answered with {number} {count} times"
                ));
            }
        }
    }
    if let Some(message) = both.counted.missing() {
        stop(&format!("FAILED: {message}"));
    }
    if both.calls() < FEWEST_CALLS {
        stop(&format!(
            "FAILED: fewer than {FEWEST_CALLS} calls were made"
        ));
    }
}

fn run_round(both: &mut Both, rng: &mut Rng) {
    let (shape, twice) = of_round(both.round);
    let mut rack = (shape.make)(rng).shuffled(rng);
    if twice {
        let doubled = rack.doubled(rng);
        plan_doubled(both, &rack, &doubled);
        rack = doubled.rack;
    }
    let wiring = rack.bytes();
    plan_file(both, rng, &wiring);
    for _ in 0..3 {
        let faulty = wirings::faulty_wiring(rng, &rack);
        plan_file(both, rng, &faulty.wiring);
    }
    if let Ok(planned) = second::planner::plan(&wiring) {
        let plan = planned.bytes();
        follow_plan(both, rng, &plan, 60);
        cross_links(both, rng, &planned.wiring, &plan);
        follow_links(both, rng, &rack, &plan);
        confer(both, rng, &plan);
        let total = sum_up(both, rng, &plan);
        change_plan(both, rng, &plan, total);
        for _ in 0..4 {
            let damaged = plans::damaged_plan(rng, &plan);
            follow_plan(both, rng, &damaged, 18);
            change_damaged(both, rng, &damaged, total);
        }
    }
    let made_up = plans::made_up_plan(rng);
    follow_plan(both, rng, &made_up, 36);
}

/// Plans and lists a wiring file, now and then with buffers of wrong lengths.
fn plan_file(both: &mut Both, rng: &mut Rng, file: &[u8]) {
    for name in [Name::PlanRack, Name::ListingText] {
        let lengths = some_lengths(rng, name);
        both.call(Call::new(name), file, lengths);
    }
}

/// Makes any calls on a plan, sound or not, and choices between two frames, at times the same.
fn follow_plan(both: &mut Both, rng: &mut Rng, plan: &[u8], calls: usize) {
    let any = rng.draw() as u32;
    let total = total_inside(plan).unwrap_or(any);
    for _ in 0..calls {
        let frames = [(); 2].map(|_| some_frame(rng, plan));
        let second = usize::from(rng.below(8) > 0);
        let call = Call {
            name: rng.pick(&NAMES[2..]),
            sizes: some_sizes(rng, plan),
            total: some_total(rng, total),
            from: some_card(rng, plan),
            goal: some_card(rng, plan),
            third: some_card(rng, plan),
            counts: [some_count(rng), some_count(rng)],
            caller: some_caller(rng),
            traffic: some_traffic(rng),
            frames: [&frames[0], &frames[second]],
        };
        let lengths = some_lengths(rng, call.name);
        both.call(call, plan, lengths);
    }
}

/// Asks for the columns of linked pairs, from either end, by their places, a step and a walk; each is the number of the link's column.
fn cross_links(both: &mut Both, rng: &mut Rng, wiring: &Wiring, plan: &[u8]) {
    let numbers = column_numbers(wiring);
    for _ in 0..CROSSED.min(wiring.links.len()) {
        let link = rng.below(wiring.links.len());
        let (p, q) = wiring.links[link];
        for (name, at) in [
            (Name::PlanPlaces, 1),
            (Name::StepFrame, 3),
            (Name::WalkFrame, 4),
            (Name::WalkByCaller, 2),
        ] {
            let (from, goal) = rng.pick(&[(p as u32, q as u32), (q as u32, p as u32)]);
            let call = Call {
                from,
                goal,
                ..Call::new(name)
            };
            let answer = both.call(call, plan, name.lengths());
            let fields = answer.lent.fields.items();
            if fields[at..at + 2] != [1, numbers[link] as u32] {
                stop(&format!(
                    "FAILED: {name:?} {from} {goal}: {fields:?}, and link {link} has column {}",
                    numbers[link]
                ));
            }
        }
    }
}

/// Asks for the conference cards of all threes of a small rack's cards, and of a hundred of a larger one.
fn confer(both: &mut Both, rng: &mut Rng, plan: &[u8]) {
    let cards = usize::from(plan[0]) + 256 * usize::from(plan[1]);
    let threes: Vec<[usize; 3]> = if cards <= SMALL {
        let digits = |three: usize| [three / cards / cards, three / cards % cards, three % cards];
        (0..cards.pow(3)).map(digits).collect()
    } else {
        (0..100).map(|_| [0; 3].map(|_| rng.below(cards))).collect()
    };
    for three in threes {
        let [from, goal, third] = three.map(|card| card as u32);
        let call = Call {
            from,
            goal,
            third,
            ..Call::new(Name::ConferenceCard)
        };
        both.call(call, plan, call.name.lengths());
    }
}

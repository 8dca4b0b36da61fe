//! Sums of hops of the plans of the rounds: read as opening does, and carried along, right or wrong, beside right or wrong sizes.

use crate::drawn::MOST;
use crate::inner_both::{Both, Call, Name, CARRYING_SUMS};
use crate::inner_drawn::sizes_in;
use crate::racks::Rng;
use crate::second::totals::total_of_columns;
use crate::stop;

/// How many calls are made on a plan with sizes and a sum that may be wrong.
const CARRIED: usize = 24;

/// An opened plan: bytes, three sizes and a sum, not always those of the bytes.
#[derive(Clone, Copy)]
pub struct Opened<'a> {
    pub plan: &'a [u8],
    pub sizes: [u32; 3],
    pub total: u32,
}

/// What is wrong with an opened plan, and the answer to a call without that.
#[derive(Clone, Copy)]
pub struct Wrong {
    pub sizes: bool,
    pub total: bool,
    pub else_number: u32,
}

/// Reads a sound plan as opening does, and makes calls on it with sizes and a sum that may be wrong. Its sum.
pub fn sum_up(both: &mut Both, rng: &mut Rng, plan: &[u8]) -> u32 {
    let total = opens(both, "a plan of the rounds", plan, None);
    let (sizes, totals) = (sizes_beside(plan), totals_beside(total));
    for _ in 0..CARRIED {
        let any_sizes = rng.pick(&sizes);
        let opened = Opened {
            plan,
            sizes: rng.pick(&[sizes[0], any_sizes]),
            total: rng.pick(&totals),
        };
        let name = rng.pick(&CARRYING_SUMS);
        let wrong = Wrong {
            sizes: opened.sizes != sizes_in(plan),
            total: opened.total != total,
            else_number: else_number(both, name, plan, total),
        };
        carries(both, name, opened, wrong);
    }
    total
}

/// The right sizes, and each of them one more and one less.
pub fn sizes_beside(plan: &[u8]) -> Vec<[u32; 3]> {
    let right = sizes_in(plan);
    let mut all = vec![right];
    for size in 0..3 {
        for by in [1, MOST] {
            let mut sizes = right;
            sizes[size] = sizes[size].wrapping_add(by);
            all.push(sizes);
        }
    }
    all
}

/// The right sum, one less and one more, none and the most, and with another bit of its upper half.
pub fn totals_beside(total: u32) -> [u32; 7] {
    [
        total,
        total.wrapping_sub(1),
        total.wrapping_add(1),
        0,
        MOST,
        total ^ 1 << 16,
        total ^ 1 << 31,
    ]
}

/// Reading as opening does is answered with the three sizes and the sum, which is that over the columns too. The sum.
pub fn opens(both: &mut Both, what: &str, plan: &[u8], expected: Option<u32>) -> u32 {
    let name = Name::ReadSummed;
    let answer = both.call(Call::new(name), plan, name.lengths());
    let by_columns = total_of_columns(plan);
    let [n, m, k] = sizes_in(plan);
    let fields = answer.lent.fields.items();
    let sums = [expected.unwrap_or(by_columns), by_columns];
    if answer.number != 0 || sums.iter().any(|&sum| fields != [n, m, k, sum]) {
        stop(&format!(
            "FAILED: {what} was opened with {}, {fields:?}; by its columns the sum is {by_columns}, expected {expected:?}",
            answer.number
        ));
    }
    by_columns
}

/// The answer to a call with the right sizes and the right sum.
fn else_number(both: &mut Both, name: Name, plan: &[u8], total: u32) -> u32 {
    let sizes = sizes_in(plan);
    let opened = Opened { plan, sizes, total };
    let call = carried(name, opened);
    both.call(call, plan, name.lengths()).number
}

/// A call on an opened plan, of the cards 0.
fn carried(name: Name, opened: Opened) -> Call<'static> {
    Call {
        sizes: opened.sizes,
        total: opened.total,
        ..Call::new(name)
    }
}

/// Other sizes than the plan's are 12, then another sum is 13, in the calls that take them. With a refusal all fields are 0.
pub fn carries(both: &mut Both, name: Name, opened: Opened, wrong: Wrong) {
    let number = match wrong {
        _ if name.carries_sizes() && wrong.sizes => 12,
        _ if name.carries_sum() && wrong.total => 13,
        _ => wrong.else_number,
    };
    let sums = &mut both.counted.sums;
    sums.alone += u64::from(number == 13 && wrong.total);
    sums.beside_sizes += u64::from(number == 12 && wrong.total);
    let answer = both.call(carried(name, opened), opened.plan, name.lengths());
    let fields = answer.lent.fields.items();
    let zeros = fields.iter().all(|&field| field == 0);
    let no_part = matches!(answer.lent.part, None | Some((0, 0)));
    if answer.number != number || number != 0 && !(zeros && no_part) {
        stop(&format!(
            "FAILED: {name:?} with {:?} and {}: answered with {}, {fields:?}, not {number}: {:02x?}",
            opened.sizes, opened.total, answer.number, opened.plan
        ));
    }
}

//! Columns: those in which two addresses of a plan differ, and the number of each link's column.

use super::planner::{hops_from, neighbours, Wiring};
use super::plans::Layout;

/// The columns in which two cards differ, rising; bits compared one by one.
pub fn differing_columns(plan: &Layout, a: usize, b: usize) -> Vec<usize> {
    let width = plan.columns.div_ceil(8);
    let bit = |card: usize, j: usize| plan.addresses[card * width + j / 8] >> (j % 8) & 1;
    (0..plan.columns)
        .filter(|&j| bit(a, j) != bit(b, j))
        .collect()
}

/// 1 and the first of some columns, or 0 and 0.
pub fn first_of(columns: &[usize]) -> [usize; 2] {
    columns.first().map_or([0, 0], |&column| [1, column])
}

/// The bytes of two addresses differ.
pub fn bytes_differ(plan: &[u8], a: usize, b: usize) -> bool {
    Layout::new(plan).is_ok_and(|plan| {
        let width = plan.columns.div_ceil(8);
        let bytes = |card: usize| &plan.addresses[card * width..][..width];
        bytes(a) != bytes(b)
    })
}

/// Several columns of two addresses differ.
pub fn many_columns(plan: &[u8], a: usize, b: usize) -> bool {
    Layout::new(plan).is_ok_and(|plan| differing_columns(&plan, a, b).len() > 1)
}

/// For each link of an accepted rack the number of its column: links that split the cards alike share one, and columns are
/// numbered by their lowest link.
pub fn column_numbers(wiring: &Wiring) -> Vec<usize> {
    let neighbours = neighbours(wiring);
    let mut splits: Vec<Vec<bool>> = Vec::new();
    let number_of = |&(p, q): &(usize, usize)| {
        let (to_p, to_q) = (hops_from(p, &neighbours), hops_from(q, &neighbours));
        let nearer_p = |card: usize| to_p[card] < to_q[card];
        let split: Vec<bool> = (0..wiring.cards)
            .map(|card| nearer_p(card) != nearer_p(0))
            .collect();
        splits
            .iter()
            .position(|known| *known == split)
            .unwrap_or_else(|| {
                splits.push(split);
                splits.len() - 1
            })
    };
    wiring.links.iter().map(number_of).collect()
}

//! The table of counts and the table of limits.

use crate::stop;
use std::fs;

pub const COLUMNS: usize = 10;
const KINDS: [&str; COLUMNS] = [
    "planning",
    "reading",
    "opening",
    "step",
    "walk",
    "step_frame",
    "walk_frame",
    "conference",
    "add_card",
    "take_off",
];

/// A row of the table, in thousands of instructions.
#[derive(Clone)]
pub struct Row {
    pub name: String,
    pub cells: [Option<f64>; COLUMNS],
}

fn table(rows: &[Row]) -> String {
    let line = |name: &str, cells: [String; COLUMNS]| {
        let cells: String = cells.iter().map(|cell| format!("{cell:>11}")).collect();
        format!("{name:<48}{cells}\n")
    };
    let cell = |cell: Option<f64>| cell.map_or("-".to_string(), |count| format!("{count:.1}"));
    let lines = rows.iter().map(|row| line(&row.name, row.cells.map(cell)));
    line("# thousands of instructions", KINDS.map(str::to_string)) + &lines.collect::<String>()
}

fn read_table(path: &str) -> Vec<Row> {
    let Ok(text) = fs::read_to_string(path) else {
        stop(&format!("{path} cannot be read"));
    };
    let lines = text.lines().filter(|line| !line.starts_with('#'));
    lines
        .map(|line| read_row(line).unwrap_or_else(|| stop(&format!("{path}: not a row: {line}"))))
        .collect()
}

/// A name, and a cell for each column, a number or `-`.
fn read_row(line: &str) -> Option<Row> {
    let words: Vec<&str> = line.split_whitespace().collect();
    let (name, cells) = words.split_at_checked(words.len().checked_sub(COLUMNS)?)?;
    let mut row = Row {
        name: name.join(" "),
        cells: [None; COLUMNS],
    };
    for (cell, word) in row.cells.iter_mut().zip(cells) {
        if *word != "-" {
            *cell = Some(word.parse().ok().filter(|limit: &f64| limit.is_finite())?);
        }
    }
    Some(row)
}

/// Prints the counts, and fails if one of them is above its limit.
pub fn check(rows: &[Row], path: &str) {
    print!("{}", table(rows));
    let limits = read_table(path);
    let filled = |row: &Row| (row.name.clone(), row.cells.map(|cell| cell.is_some()));
    if !rows.iter().map(filled).eq(limits.iter().map(filled)) {
        stop(&format!(
            "{path} has other rows or cells; 'tests/cost --set' writes it"
        ));
    }
    let mut above = Vec::new();
    for (row, limit) in rows.iter().zip(&limits) {
        let cells = row.cells.iter().zip(&limit.cells).zip(KINDS);
        let cells = cells.filter(|((count, limit), _)| count > limit);
        above.extend(cells.map(|((count, limit), kind)| (&row.name, kind, *count, *limit)));
    }
    for (name, kind, count, limit) in &above {
        let [count, limit] = [count, limit].map(|cell| cell.unwrap_or_default());
        println!("FAILED: {name}, {kind}: {count:.1} is above the limit of {limit:.1}");
    }
    let counts = rows.iter().flat_map(|row| row.cells).flatten().count();
    println!("cost: {counts} counts, {} above their limits", above.len());
    if !above.is_empty() {
        std::process::exit(1);
    }
}

/// Writes limits a tenth above the counts.
pub fn set(rows: &[Row], path: &str) {
    let mut limits = rows.to_vec();
    for cell in limits.iter_mut().flat_map(|row| &mut row.cells) {
        *cell = cell.map(|count| count * 1.1);
    }
    if fs::write(path, table(&limits)).is_err() {
        stop(&format!("{path} cannot be written"));
    }
}

//! What callgrind counted of each call, brought into the rows of the table, and tests that a plan is read once.

use crate::cost_table::{Row, COLUMNS};
use crate::{stop, Kind};
use std::fs;

/// The most that opening may take, and adding a card or taking one off, as a multiple of reading the same plan.
const MOST_OPENING: f64 = 1.4;
const MOST_CHANGING: f64 = 1.5;
/// The most that a call may take that reads a plan and does little more, as a multiple of reading it, or of opening it where it tests the
/// sum.
const READ_ONCE: f64 = 1.1;

/// The highest count of each row and kind. Callgrind leaves one file for each call, numbered from 1.
pub fn read_counts(folder: &str, made: &[(&str, Kind)]) -> Vec<Row> {
    let mut rows: Vec<Row> = Vec::new();
    let (mut before, mut most) = (0.0, Most::default());
    for (place, &(name, kind)) in made.iter().enumerate() {
        let whole = read_count(&format!("{folder}/count.{}", place + 1), kind);
        let count = match kind {
            Kind::Conference | Kind::AddCard | Kind::TakeOff => whole - before,
            _ => whole,
        };
        before = whole;
        if rows.last().is_none_or(|row| row.name != name) {
            let name = name.to_string();
            rows.push(Row {
                name,
                cells: [None; COLUMNS],
            });
        }
        let row = rows.last_mut().expect("a row was pushed");
        most.hold(row, kind, whole);
        if let Some(cell) = row.cells.get_mut(kind as usize) {
            *cell = Some(cell.map_or(count, |most| most.max(count)));
        }
    }
    if fs::exists(format!("{folder}/count.{}", made.len() + 1)).unwrap_or(true) {
        stop("callgrind counted more calls than were made");
    }
    most.report();
    rows
}

/// The last counts of reading and opening, and the highest multiples of them by what is held to each.
#[derive(Default)]
struct Most {
    reading: f64,
    opening: f64,
    multiples: Vec<(&'static str, f64)>,
}

impl Most {
    /// Holds a call to what reading or opening the same plan took before it.
    fn hold(&mut self, row: &Row, kind: Kind, count: f64) {
        let (what, plain, most) = match kind {
            Kind::Reading => {
                self.reading = count;
                return;
            }
            Kind::Opening => {
                self.opening = count;
                ("opening / reading", self.reading, MOST_OPENING)
            }
            Kind::AddCard => ("adding / reading", self.reading, MOST_CHANGING),
            Kind::TakeOff => ("taking off / reading", self.reading, MOST_CHANGING),
            Kind::RefusedConference => ("refused conference / reading", self.reading, READ_ONCE),
            Kind::RefusedAdding => ("refused adding / opening", self.opening, READ_ONCE),
            Kind::ReadCarried => ("reading an opened plan / opening", self.opening, READ_ONCE),
            Kind::AddressCarried => ("address / opening", self.opening, READ_ONCE),
            Kind::ConferenceCarried => {
                ("its refused conference / opening", self.opening, READ_ONCE)
            }
            _ => return,
        };
        let multiple = count / plain;
        if multiple.is_nan() || multiple > most {
            stop(&format!(
                "{}: {what} is {multiple:.3}, above {most}",
                row.name
            ));
        }
        match self.multiples.iter_mut().find(|(known, _)| *known == what) {
            Some((_, highest)) => *highest = highest.max(multiple),
            None => self.multiples.push((what, multiple)),
        }
    }

    fn report(&self) {
        for (what, highest) in &self.multiples {
            println!("{what}: at most {highest:.3}");
        }
    }
}

fn read_count(path: &str, kind: Kind) -> f64 {
    let Ok(text) = fs::read_to_string(path) else {
        stop(&format!("callgrind left no {path}"));
    };
    let field = |name: &str| text.lines().find_map(|line| line.strip_prefix(name));
    let call = field("desc: Trigger: --dump-after=");
    let count = field("totals: ").and_then(|count| count.parse::<u64>().ok());
    match count {
        Some(count) if count > 0 && call == Some(kind.call()) => count as f64 / 1e3,
        _ => stop(&format!("{path} has no count of {}", kind.call())),
    }
}

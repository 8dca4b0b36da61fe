//! Times calls that C has not, by the library for the tests, and prints a table of each.

mod caller_walks;
#[path = "../tests/callers.rs"]
mod callers;
#[path = "../tests/calls.rs"]
#[allow(dead_code)]
mod calls;
#[allow(dead_code)]
#[path = "../tests/carried.rs"]
mod carried;
#[path = "../tests/conference.rs"]
mod conference;
mod conferences;
#[path = "../tests/crossing.rs"]
mod crossing;
mod crossings;
#[allow(dead_code)]
mod growing;
#[path = "../tests/last_card.rs"]
mod last_card;
mod last_cards;
#[allow(dead_code)]
mod measured;
#[path = "../tests/opening.rs"]
mod opening;
mod openings;
#[allow(dead_code)]
#[path = "../tests/racks/mod.rs"]
mod racks;
#[allow(dead_code)]
#[path = "../tests/second/mod.rs"]
mod second;

fn main() {
    crossings::print_table();
    println!();
    caller_walks::print_table();
    println!();
    conferences::print_table();
    println!();
    openings::print_table();
    println!();
    last_cards::print_table();
}

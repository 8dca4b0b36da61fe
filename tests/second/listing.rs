//! The listing of a wiring file: its addresses, or its refusal.

use super::planner::{plan, Plan};
use super::Refusal;

pub fn listing(file: &[u8]) -> String {
    match plan(file) {
        Ok(planned) => accepted(&planned),
        Err(Refusal { number, at }) => match number {
            6 | 7 | 8 | 10 => format!("refused {number} link {at}\n"),
            9 => format!("refused {number} card {at}\n"),
            _ => format!("refused {number}\n"),
        },
    }
}

fn accepted(planned: &Plan) -> String {
    let (cards, links) = (planned.wiring.cards, planned.wiring.links.len());
    let columns = planned.columns;
    let mut text = format!("cards {cards}\nlinks {links}\ncolumns {columns}\n");
    for (card, address) in planned.addresses.iter().enumerate() {
        let digit =
            |column: usize| char::from(b'0' + (address[column / 64] >> (column % 64) & 1) as u8);
        let digits: String = (0..columns).map(digit).collect();
        let address = if columns == 0 { "-" } else { &digits };
        text += &format!("card {card} {address}\n");
    }
    text
}

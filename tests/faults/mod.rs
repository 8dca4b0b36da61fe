//! Wiring files with faults, and plan files that are damaged or made up.

pub mod plans;
pub mod wirings;

use crate::racks::Rng;

fn number(file: &[u8], place: usize) -> usize {
    usize::from(u16::from_le_bytes([file[2 * place], file[2 * place + 1]]))
}

fn put_number(file: &mut [u8], place: usize, number: usize) {
    file[2 * place..2 * place + 2].copy_from_slice(&(number as u16).to_le_bytes());
}

fn either_way(rng: &mut Rng, p: usize, q: usize) -> (usize, usize) {
    rng.pick(&[(p, q), (q, p)])
}

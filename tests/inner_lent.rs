//! What is lent to a call of libtest_calls.a, between margins.

use crate::racks::Rng;

/// Items on each side of a lent buffer that no call may touch.
const MARGIN: usize = 16;

/// How many items are lent for words, for bytes (hops, text or a plan), for cards met, for the counts of all callers or their turns
/// alone, and for the answer's fields.
#[derive(Clone, Copy, Debug, PartialEq)]
pub struct Lengths {
    pub words: usize,
    pub bytes: usize,
    pub met: usize,
    pub traffic: usize,
    pub turns: usize,
    pub fields: usize,
}

/// A lent buffer between its margins.
#[derive(Clone, PartialEq)]
pub struct Lent<T>(Vec<T>);

impl<T> Lent<T> {
    fn noise(rng: &mut Rng, len: usize, item: fn(u64) -> T) -> Lent<T> {
        Lent((0..len + 2 * MARGIN).map(|_| item(rng.draw())).collect())
    }

    pub fn items(&self) -> &[T] {
        &self.0[MARGIN..self.0.len() - MARGIN]
    }

    pub fn items_mut(&mut self) -> &mut [T] {
        let end = self.0.len() - MARGIN;
        &mut self.0[MARGIN..end]
    }

    /// As a call takes it: where it begins, and its length.
    pub fn lend(&mut self) -> (*mut T, usize) {
        let items = self.items_mut();
        (items.as_mut_ptr(), items.len())
    }
}

impl<T: Copy> Lent<T> {
    /// Puts as many items as there are places for in front.
    pub fn put(&mut self, items: &[T]) {
        for (place, &item) in self.items_mut().iter_mut().zip(items) {
            *place = item;
        }
    }
}

impl<T: PartialEq + std::fmt::Debug> Lent<T> {
    /// Where two buffers differ first; a place before 0 or behind the end is in a margin.
    fn difference(&self, other: &Lent<T>, name: &str) -> Option<String> {
        let at = self.0.iter().zip(&other.0).position(|(x, y)| x != y)?;
        let (place, x, y) = (at as i64 - MARGIN as i64, &self.0[at], &other.0[at]);
        Some(format!("{name} {place}: library {x:?}, second {y:?}\n"))
    }
}

/// All that is lent to a call, and the part of its input or of its frames that it handed out: how far behind the first byte it begins, and
/// its length.
#[derive(Clone, PartialEq)]
pub struct Lents {
    pub words: Lent<u64>,
    pub bytes: Lent<u8>,
    pub met: Lent<u16>,
    pub traffic: Lent<u32>,
    pub turns: Lent<u32>,
    pub fields: Lent<u32>,
    pub part: Option<(usize, usize)>,
}

impl Lents {
    pub fn noise(rng: &mut Rng, lengths: Lengths) -> Lents {
        Lents {
            words: Lent::noise(rng, lengths.words, |x| x),
            bytes: Lent::noise(rng, lengths.bytes, |x| x as u8),
            met: Lent::noise(rng, lengths.met, |x| x as u16),
            traffic: Lent::noise(rng, lengths.traffic, |x| x as u32),
            turns: Lent::noise(rng, lengths.turns, |x| x as u32),
            fields: Lent::noise(rng, lengths.fields, |x| x as u32),
            part: None,
        }
    }

    pub fn differences(&self, other: &Lents) -> String {
        let places = [
            self.words.difference(&other.words, "word"),
            self.bytes.difference(&other.bytes, "byte"),
            self.met.difference(&other.met, "card met"),
            self.traffic.difference(&other.traffic, "count lent"),
            self.turns.difference(&other.turns, "turns of caller"),
            self.fields.difference(&other.fields, "field"),
        ];
        let places: String = places.into_iter().flatten().collect();
        format!("{places}parts: {:?}, {:?}\n", self.part, other.part)
    }
}

//! One call made on the library and on the second implementation, and all that they hand back
//! compared.

use crate::racks::Rng;
use crate::{calls, second};

/// Bytes on each side of a lent buffer that no call may touch.
const MARGIN: usize = 16;
const SHOWN_BYTES: usize = 400;
/// The numbers of refusals are below this, and 0 is no refusal.
pub const NUMBERS: usize = 27;

#[derive(Clone, Copy, Debug)]
pub enum Call {
    WritePlan,
    ReadPlan,
    Walk { from: u32, to: u32, caller: u32 },
}

/// The lengths of the lent buffers: plan or cards met, and record. Reading has only the record.
#[derive(Clone, Copy, Debug, PartialEq)]
pub struct Lengths {
    pub result: usize,
    pub record: usize,
}

impl Call {
    pub fn lengths(self) -> Lengths {
        let result = match self {
            Call::WritePlan => second::PLAN_BYTES,
            Call::ReadPlan => 0,
            Call::Walk { .. } => second::MET_BYTES,
        };
        Lengths {
            result,
            record: second::RECORD_BYTES,
        }
    }

    fn row(self) -> usize {
        match self {
            Call::WritePlan => 0,
            Call::ReadPlan => 1,
            Call::Walk { .. } => 2,
        }
    }
}

/// A lent buffer between its margins.
#[derive(Clone, PartialEq)]
struct Lent(Vec<u8>);

impl Lent {
    fn noise(rng: &mut Rng, len: usize) -> Lent {
        Lent(rng.bytes(len + 2 * MARGIN))
    }

    fn bytes(&self) -> &[u8] {
        &self.0[MARGIN..self.0.len() - MARGIN]
    }

    fn bytes_mut(&mut self) -> &mut [u8] {
        let end = self.0.len() - MARGIN;
        &mut self.0[MARGIN..end]
    }

    fn margins(&self) -> [&[u8]; 2] {
        [&self.0[..MARGIN], &self.0[self.0.len() - MARGIN..]]
    }
}

/// What a call returned and left in its buffers.
#[derive(Clone, PartialEq)]
pub struct Answer {
    pub code: u32,
    result: Lent,
    record: Lent,
}

impl Answer {
    pub fn number(&self) -> u32 {
        self.code % 256
    }

    pub fn result(&self) -> &[u8] {
        self.result.bytes()
    }

    pub fn record(&self) -> [u32; 4] {
        let number = |at: usize| {
            self.record.bytes()[4 * at..][..4]
                .try_into()
                .map(u32::from_le_bytes)
        };
        [0, 1, 2, 3].map(|at| number(at).expect("a record has 16 bytes"))
    }

    /// The cards met in a walk that was made.
    pub fn met(&self) -> Vec<usize> {
        let cards = self
            .result()
            .chunks_exact(2)
            .map(|card| usize::from(u16::from_le_bytes([card[0], card[1]])));
        cards.take(self.record()[1] as usize + 1).collect()
    }

    fn text(&self) -> String {
        let parts = [hex(self.result()), hex(self.record.bytes())];
        format!(
            "returned {}\n    result {}\n    record {}",
            self.code, parts[0], parts[1]
        )
    }

    /// What the numbers promise of the buffers: 2 to 11 clear them, the others keep them.
    fn keeps_promise(&self, before: &Answer) -> bool {
        let parts = [
            (&self.result, &before.result),
            (&self.record, &before.record),
        ];
        parts.into_iter().all(|(after, before)| {
            let whole = match self.number() {
                0 => true,
                2..=11 => after.bytes().iter().all(|&byte| byte == 0),
                _ => after == before,
            };
            whole && after.margins() == before.margins()
        })
    }
}

/// Where two buffers differ first; a place before 0 or behind the end is in a margin.
fn first_difference(name: &str, ours: &Lent, theirs: &Lent) -> Option<String> {
    let at = ours.0.iter().zip(&theirs.0).position(|(x, y)| x != y)?;
    let (place, bytes) = (at as i64 - MARGIN as i64, [ours.0[at], theirs.0[at]]);
    Some(format!(
        "{name} byte {place}: library {:02x}, second {:02x}\n",
        bytes[0], bytes[1]
    ))
}

fn hex(bytes: &[u8]) -> String {
    let shown: Vec<String> = bytes
        .iter()
        .take(SHOWN_BYTES)
        .map(|byte| format!("{byte:02x}"))
        .collect();
    let more = if bytes.len() > SHOWN_BYTES {
        " ..."
    } else {
        ""
    };
    format!("({} bytes) {}{more}", bytes.len(), shown.join(" "))
}

fn ask_library(call: Call, input: &[u8], answer: &mut Answer) {
    let (result, record) = (answer.result.bytes_mut(), answer.record.bytes_mut());
    answer.code = match call {
        Call::WritePlan => calls::write_plan(input, result, record),
        Call::ReadPlan => calls::read_plan(input, record),
        Call::Walk { from, to, caller } => calls::walk(input, from, to, caller, result, record),
    };
}

fn ask_second(call: Call, input: &[u8], answer: &mut Answer) {
    let (result, record) = (answer.result.bytes_mut(), answer.record.bytes_mut());
    answer.code = match call {
        Call::WritePlan => second::write_plan(input, result, record),
        Call::ReadPlan => second::read_plan(input, record),
        Call::Walk { from, to, caller } => second::walk(input, from, to, caller, result, record),
    };
}

/// Makes calls and counts the numbers of their answers.
pub struct Both {
    seed: u64,
    pub round: u64,
    noise: Rng,
    /// For each of the three calls, how often each number was the answer.
    pub seen: [[u64; NUMBERS]; 3],
}

impl Both {
    pub fn new(seed: u64) -> Both {
        Both {
            seed,
            round: 0,
            noise: Rng::new(!seed),
            seen: [[0; NUMBERS]; 3],
        }
    }

    pub fn calls(&self) -> u64 {
        self.seen.iter().flatten().sum()
    }

    pub fn write_plan(&mut self, wiring: &[u8]) -> Answer {
        self.call(Call::WritePlan, wiring, Call::WritePlan.lengths(), [0, 0])
    }

    pub fn read_plan(&mut self, plan: &[u8]) -> Answer {
        self.call(Call::ReadPlan, plan, Call::ReadPlan.lengths(), [0, 0])
    }

    pub fn walk(
        &mut self,
        plan: &[u8],
        [from, to]: [u32; 2],
        caller: u32,
        counts: [u32; 2],
    ) -> Answer {
        let call = Call::Walk { from, to, caller };
        self.call(call, plan, call.lengths(), counts)
    }

    /// Makes a call with buffers of any length. The counts stand in the record of a walk.
    pub fn call(&mut self, call: Call, input: &[u8], lengths: Lengths, counts: [u32; 2]) -> Answer {
        let mut before = Answer {
            code: 0,
            result: Lent::noise(&mut self.noise, lengths.result),
            record: Lent::noise(&mut self.noise, lengths.record),
        };
        if let (Call::Walk { .. }, Some(places)) = (call, before.record.bytes_mut().get_mut(8..16))
        {
            places[..4].copy_from_slice(&counts[0].to_le_bytes());
            places[4..].copy_from_slice(&counts[1].to_le_bytes());
        }
        let lent_input = input.to_vec();
        let (mut ours, mut theirs) = (before.clone(), before.clone());
        ask_library(call, &lent_input, &mut ours);
        ask_second(call, input, &mut theirs);
        let fault = if ours != theirs {
            "the answers differ"
        } else if lent_input != input {
            "the library changed its input"
        } else if !ours.keeps_promise(&before) {
            "the buffers are not as the number promises"
        } else {
            self.seen[call.row()][ours.number() as usize] += 1;
            return ours;
        };
        self.fail_call(
            fault,
            call,
            input,
            [&ours, &theirs],
            &format!("{lengths:?}, counts {counts:?}"),
        )
    }

    fn fail_call(
        &self,
        fault: &str,
        call: Call,
        input: &[u8],
        answers: [&Answer; 2],
        lent: &str,
    ) -> ! {
        let [ours, theirs] = answers;
        let places = [
            first_difference("result", &ours.result, &theirs.result),
            first_difference("record", &ours.record, &theirs.record),
        ];
        let places: String = places.into_iter().flatten().collect();
        let answers = format!("library: {}\nsecond: {}", ours.text(), theirs.text());
        self.fail(
            fault,
            &format!(
                "{places}call: {call:?}, {lent}\ninput: {}\n{answers}",
                hex(input)
            ),
        )
    }

    /// Ends the program if an answer is not as it must be, whatever the second implementation says.
    pub fn expect(&self, holds: bool, what: &str, input: &[u8], answer: &Answer) {
        if !holds {
            self.fail(
                what,
                &format!("input: {}\nboth: {}", hex(input), answer.text()),
            );
        }
    }

    fn fail(&self, what: &str, details: &str) -> ! {
        println!("FAILED: {what}");
        let (seed, round) = (self.seed, self.round);
        println!(
            "seed {seed}, round {round}; again with: compare {seed} {}",
            round + 1
        );
        println!("{details}");
        std::process::exit(1)
    }
}

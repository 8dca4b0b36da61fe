//! One call made on libtest_calls.a and on the second implementation, and all that they hand back compared.

use crate::inner_counted::Counted;
use crate::inner_lent::{Lengths, Lents};
use crate::racks::Rng;
use crate::second::callers::{CALLERS, COUNTS};
use crate::second::PLAN_BYTES;
use crate::{inner_calls, inner_reading, inner_second};

const SHOWN: usize = 400;
/// Refusals are numbered below this.
const NUMBERS: usize = 27;

#[derive(Clone, Copy, Debug, PartialEq)]
pub enum Name {
    PlanRack,
    ListingText,
    CardAddress,
    PlanPlaces,
    StepFrame,
    WalkFrame,
    WalkByCaller,
    WalkLent,
    NextFrame,
    ReadSummed,
    ReadCarried,
    /// Both calls: the part, and the number beside it.
    AddressCarried,
    StepCarried,
    WalkCarried,
    OpenedStep,
    OpenedWalk,
    ConferenceCard,
    ConferenceCarried,
    AddCard,
    TakeCardOff,
    AddCarried,
    TakeOffCarried,
}

pub const NAMES: [Name; 22] = [
    Name::PlanRack,
    Name::ListingText,
    Name::CardAddress,
    Name::PlanPlaces,
    Name::StepFrame,
    Name::WalkFrame,
    Name::WalkByCaller,
    Name::WalkLent,
    Name::NextFrame,
    Name::ReadSummed,
    Name::ReadCarried,
    Name::AddressCarried,
    Name::StepCarried,
    Name::WalkCarried,
    Name::OpenedStep,
    Name::OpenedWalk,
    Name::ConferenceCard,
    Name::ConferenceCarried,
    Name::AddCard,
    Name::TakeCardOff,
    Name::AddCarried,
    Name::TakeOffCarried,
];

/// The calls that take an opened plan's sum.
pub const CARRYING_SUMS: [Name; 7] = [
    Name::ReadCarried,
    Name::AddressCarried,
    Name::ConferenceCarried,
    Name::AddCard,
    Name::TakeCardOff,
    Name::AddCarried,
    Name::TakeOffCarried,
];

/// What a call answers.
#[derive(Clone, Copy, PartialEq)]
pub enum Kind {
    Plan,
    Listing,
    Address,
    Sizes,
    Summed,
    Places,
    Step,
    Walk,
    CallerWalk,
    Choice,
    Conference,
    NewPlan,
}

impl Name {
    pub fn kind(self) -> Kind {
        match self {
            Name::PlanRack => Kind::Plan,
            Name::ListingText => Kind::Listing,
            Name::CardAddress | Name::AddressCarried => Kind::Address,
            Name::ReadCarried => Kind::Sizes,
            Name::ReadSummed => Kind::Summed,
            Name::PlanPlaces => Kind::Places,
            Name::StepFrame | Name::StepCarried | Name::OpenedStep => Kind::Step,
            Name::WalkFrame => Kind::Walk,
            Name::WalkByCaller | Name::WalkLent | Name::WalkCarried | Name::OpenedWalk => {
                Kind::CallerWalk
            }
            Name::NextFrame => Kind::Choice,
            Name::ConferenceCard | Name::ConferenceCarried => Kind::Conference,
            Name::AddCard | Name::TakeCardOff | Name::AddCarried | Name::TakeOffCarried => {
                Kind::NewPlan
            }
        }
    }

    /// Of the calls that change a plan, those that add a card.
    pub fn adds(self) -> bool {
        matches!(self, Name::AddCard | Name::AddCarried)
    }

    /// It takes an opened plan's sizes.
    pub fn carries_sizes(self) -> bool {
        let steps = matches!(self, Name::StepCarried | Name::WalkCarried);
        steps || self.carries_sum() && !matches!(self, Name::AddCard | Name::TakeCardOff)
    }

    /// It takes an opened plan's sum, and tests it.
    pub fn carries_sum(self) -> bool {
        CARRYING_SUMS.contains(&self)
    }

    pub fn lengths(self) -> Lengths {
        let [words, bytes, met, traffic, turns, fields] = match self.kind() {
            Kind::Plan => [1_024, 65_536, 0, 0, 0, 2],
            Kind::Listing => [0, 67_873, 0, 0, 0, 2],
            Kind::Address => [0; 6],
            Kind::Sizes | Kind::Places => [0, 0, 0, 0, 0, 3],
            Kind::Summed => [0, 0, 0, 0, 0, 4],
            Kind::Step => [0, 0, 0, 0, 0, 5],
            Kind::Walk => [0, 0, 256, 0, 0, 6],
            Kind::CallerWalk => [0, 0, 256, COUNTS, 0, 4],
            Kind::Choice => [0, 0, 0, 0, CALLERS, 0],
            Kind::Conference => [0, 0, 0, 0, 0, 2],
            Kind::NewPlan => [0, PLAN_BYTES, 0, 0, 0, 2],
        };
        Lengths {
            words,
            bytes,
            met,
            traffic,
            turns,
            fields,
        }
    }

    /// The numbers that it can be answered with.
    pub fn numbers(self) -> &'static [usize] {
        match self.kind() {
            Kind::Plan => &[0, 1, 2, 3, 4, 5, 6, 7, 8, 9, 10, 11],
            Kind::Listing => &[0, 1],
            Kind::Address => &[0, 12, 13, 14],
            Kind::Sizes | Kind::Summed => &[0, 1, 12, 13],
            Kind::Places | Kind::Step => &[0, 1, 12, 14],
            Kind::Walk => &[0, 1, 12, 14, 15],
            Kind::CallerWalk if self == Name::WalkLent => &[0, 1, 12, 14, 15, 18, 19],
            Kind::CallerWalk => &[0, 1, 12, 14, 15, 18],
            Kind::Choice => &[0, 15, 18, 19],
            Kind::Conference => &[0, 1, 12, 13, 14],
            Kind::NewPlan if self.adds() => &[0, 1, 12, 13, 14, 16],
            Kind::NewPlan => &[0, 1, 12, 13, 17],
        }
    }
}

/// A call, its numbers and its frames; each call takes those that it has. An address is that of card `from`; places are those of `from`
/// and `goal`; a conference is of `from`, `goal` and `third`; a new card hangs on card `from`; a frame that is walked is the first.
#[derive(Clone, Copy, Debug)]
pub struct Call<'a> {
    pub name: Name,
    pub sizes: [u32; 3],
    pub total: u32,
    pub from: u32,
    pub goal: u32,
    pub third: u32,
    pub counts: [u32; 2],
    pub caller: u32,
    /// The frame counts of all callers, their hop counts and their turn counts.
    pub traffic: [u32; COUNTS],
    pub frames: [&'a [u8]; 2],
}

impl Call<'_> {
    /// A call whose numbers are 0.
    pub fn new(name: Name) -> Call<'static> {
        Call {
            name,
            sizes: [0; 3],
            total: 0,
            from: 0,
            goal: 0,
            third: 0,
            counts: [0; 2],
            caller: 0,
            traffic: [0; COUNTS],
            frames: [&[]; 2],
        }
    }

    /// What is lent to it.
    fn lents(&self, noise: &mut Rng, lengths: Lengths) -> Lents {
        let mut lents = Lents::noise(noise, lengths);
        lents.traffic.put(&self.traffic);
        lents.turns.put(&self.traffic[COUNTS - CALLERS..]);
        lents
    }
}

/// What both sides answered and left in what was lent.
pub struct Answer {
    pub number: u32,
    pub lent: Lents,
}

/// Makes calls and counts the numbers of their answers.
pub struct Both {
    seed: u64,
    pub round: u64,
    noise: Rng,
    /// For each call, how often each number was the answer.
    pub seen: [[u64; NUMBERS]; NAMES.len()],
    pub counted: Counted,
    known: inner_reading::Known,
}

impl Both {
    pub fn new(seed: u64) -> Both {
        Both {
            seed,
            round: 0,
            noise: Rng::new(!seed),
            seen: Default::default(),
            counted: Default::default(),
            known: Default::default(),
        }
    }

    pub fn calls(&self) -> u64 {
        self.seen.iter().flatten().sum()
    }

    /// Makes a call on both sides; the answer that they agree in.
    pub fn call(&mut self, call: Call, input: &[u8], lengths: Lengths) -> Answer {
        let mut ours = call.lents(&mut self.noise, lengths);
        let mut theirs = ours.clone();
        let (lent_input, frames) = (input.to_vec(), call.frames.map(<[u8]>::to_vec));
        let number = inner_calls::ask(&call, &lent_input, &mut ours);
        let changed = lent_input != input || frames != call.frames;
        let expected = inner_second::ask(&mut self.known, &call, input, &mut theirs);
        if number != expected || ours != theirs || changed {
            let shown = &input[..input.len().min(SHOWN)];
            let (seed, round) = (self.seed, self.round);
            println!("FAILED: library {number}, second {expected}");
            println!(
                "seed {seed}, round {round}; again with: inner {seed} {}",
                round + 1
            );
            println!("{}{call:?}, {lengths:?}", ours.differences(&theirs));
            println!(
                "input changed: {changed}; {} bytes: {shown:02x?}",
                input.len()
            );
            std::process::exit(1)
        }
        self.seen[call.name as usize][number as usize] += 1;
        if number == 0 {
            self.counted.count(&call, input, &ours);
        }
        Answer { number, lent: ours }
    }
}

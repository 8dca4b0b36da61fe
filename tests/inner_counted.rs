//! What the answers of a comparison were, counted, so that none of their kinds is left out.

use crate::inner_both::{Call, Kind, Name};
use crate::inner_lent::Lents;
use crate::second::callers::CALLERS;
use crate::second::columns::{bytes_differ, many_columns};
use crate::second::plans::Layout;

const FULL: u32 = u32::MAX;

/// How often two cards had equal addresses with other spare bits, and a step, or a walk that was stuck, crossed one of several
/// columns that differ.
#[derive(Default)]
struct Columns {
    spare: u64,
    step: u64,
    stuck_walk: u64,
}

/// How often a card more made addresses of some bytes a byte longer, a card less made them shorter again, and the link that was
/// taken off led from the last card.
#[derive(Default)]
struct Changes {
    wider: u64,
    narrower: u64,
    turned: u64,
}

/// How often another sum than the plan's was met alone, or beside other sizes, and a damaged plan with the sum of its wiring.
#[derive(Default)]
pub struct Sums {
    pub alone: u64,
    pub beside_sizes: u64,
    pub damaged: u64,
}

/// How often a walk was counted while its caller's turns, or another caller's frames, were full, and a walk was stuck while its
/// caller's frames were.
#[derive(Default)]
struct Callers {
    full_turns: u64,
    full_others: u64,
    full_and_stuck: u64,
}

/// How often the first of two frames went, level or with fewer turns, how often the second, and the first of two of one caller.
#[derive(Default)]
struct Choices {
    level: u64,
    first: u64,
    second: u64,
    one_caller: u64,
}

#[derive(Default)]
pub struct Counted {
    /// How often a step was stuck, had arrived, or went over a link.
    outcomes: [u64; 3],
    /// How often a walk was stuck, or arrived.
    ends: [u64; 2],
    /// How often a conference had no card, or one.
    conferences: [u64; 2],
    columns: Columns,
    changes: Changes,
    pub sums: Sums,
    callers: Callers,
    choices: Choices,
    /// How often a step of a walk went over a link that has a twin.
    pub twins: u64,
}

impl Counted {
    /// Counts a call that was not refused.
    pub fn count(&mut self, call: &Call, input: &[u8], lent: &Lents) {
        let fields: Vec<usize> = lent.fields.items().iter().map(|&x| x as usize).collect();
        let from = call.from as usize;
        match call.name.kind() {
            Kind::Places if fields[0] == 0 => {
                let spare = bytes_differ(input, from, call.goal as usize);
                self.columns.spare += u64::from(spare);
            }
            Kind::Step => {
                self.outcomes[fields[0]] += 1;
                let many = fields[0] == 2 && many_columns(input, from, fields[2]);
                self.columns.step += u64::from(many);
            }
            Kind::Walk => self.count_walk(from, input, lent),
            Kind::CallerWalk => {
                self.count_walk(from, input, lent);
                self.count_caller(call, fields[0] == 1);
            }
            Kind::Choice => self.count_choice(call, lent),
            Kind::Conference => self.conferences[fields[0]] += 1,
            Kind::NewPlan => self.count_change(input, &lent.bytes.items()[..fields[0]]),
            _ => {}
        }
    }

    fn count_walk(&mut self, from: usize, input: &[u8], lent: &Lents) {
        let fields = lent.fields.items();
        self.ends[fields[0] as usize] += 1;
        let second = usize::from(lent.met.items()[1]);
        let stuck = fields[0] == 0 && fields[1] > 0;
        let many = stuck && many_columns(input, from, second);
        self.columns.stuck_walk += u64::from(many);
    }

    fn count_caller(&mut self, call: &Call, arrived: bool) {
        let caller = match call.name {
            Name::WalkLent => usize::from(call.frames[0][2]),
            _ => call.caller as usize,
        };
        let (frames, turns) = (&call.traffic[..CALLERS], &call.traffic[2 * CALLERS..]);
        let callers = &mut self.callers;
        callers.full_turns += u64::from(arrived && turns[caller] == FULL);
        callers.full_others += u64::from(arrived && frames.contains(&FULL));
        callers.full_and_stuck += u64::from(!arrived && frames[caller] == FULL);
    }

    fn count_choice(&mut self, call: &Call, lent: &Lents) {
        let [first, second] = call.frames.map(|frame| usize::from(frame[2]));
        let turns = &call.traffic[2 * CALLERS..];
        let raised = |caller: usize| lent.turns.items()[caller] != turns[caller];
        let level = turns[first] == turns[second];
        let choices = &mut self.choices;
        choices.one_caller += u64::from(first == second);
        choices.level += u64::from(first != second && level && raised(first));
        choices.first += u64::from(!level && raised(first));
        choices.second += u64::from(!level && raised(second));
    }

    fn count_change(&mut self, old: &[u8], new: &[u8]) {
        let (Ok(old), Ok(new)) = (Layout::new(old), Layout::new(new)) else {
            return;
        };
        let [before, after] = [&old, &new].map(|plan| plan.columns.div_ceil(8));
        self.changes.wider += u64::from(0 < before && before < after);
        self.changes.narrower += u64::from(0 < after && after < before);
        let turned = old.wiring().links.last().is_some_and(|(p, q)| p > q);
        self.changes.turned += u64::from(turned && new.cards < old.cards);
    }

    pub fn report(&self) {
        let ([stuck, arrived, onward], ends) = (self.outcomes, self.ends);
        let [nowhere, somewhere] = self.conferences;
        println!(
            "steps stuck {stuck}, arrived {arrived}, over a link {onward}; walks stuck {}, arrived {}; \
             conferences at a card {somewhere}, at none {nowhere}",
            ends[0], ends[1]
        );
        let columns = &self.columns;
        println!(
            "of several columns crossed, by steps {}, by walks that were stuck {}; only spare bits differ {}",
            columns.step, columns.stuck_walk, columns.spare
        );
        let changes = &self.changes;
        println!(
            "addresses a byte longer {}, shorter {}; taken off by a link from the last card {}",
            changes.wider, changes.narrower, changes.turned
        );
        let sums = &self.sums;
        println!(
            "other sums alone {}, beside other sizes {}; damaged plans with the sum of their wiring {}",
            sums.alone, sums.beside_sizes, sums.damaged
        );
        let callers = &self.callers;
        println!(
            "walks counted with full turns {}, with another caller's frames full {}; stuck with full frames {}",
            callers.full_turns, callers.full_others, callers.full_and_stuck
        );
        let choices = &self.choices;
        println!(
            "choices of the first, level {}, with fewer turns {}, of one caller {}; of the second {}",
            choices.level, choices.first, choices.one_caller, choices.second
        );
        println!("steps of walks over twins {}", self.twins);
    }

    /// What was never met, where there is such a thing.
    pub fn missing(&self) -> Option<&'static str> {
        let (columns, changes, sums) = (&self.columns, &self.changes, &self.sums);
        let (callers, choices) = (&self.callers, &self.choices);
        let ends = [&self.outcomes[..], &self.ends, &self.conferences].concat();
        let all = [
            (
                &ends[..],
                "a step, a walk or a conference never ended in one of its ways",
            ),
            (
                &[columns.step, columns.stuck_walk, columns.spare],
                "never did several columns differ on a way, or only spare bits of two cards",
            ),
            (
                &[changes.wider, changes.narrower, changes.turned],
                "never did a card more or less change the bytes of an address, or a link from the last card go",
            ),
            (
                &[sums.alone, sums.beside_sizes, sums.damaged],
                "never was another sum carried, alone or beside other sizes, or a damaged plan's own",
            ),
            (
                &[callers.full_turns, callers.full_others, callers.full_and_stuck],
                "never were counts full that a walk does not raise",
            ),
            (
                &[choices.level, choices.first, choices.second, choices.one_caller],
                "two waiting frames were never chosen from in one of the ways",
            ),
            (&[self.twins], "never did a walk go over a link that has a twin"),
        ];
        let missing = all.iter().find(|(counts, _)| counts.contains(&0));
        missing.map(|&(_, message)| message)
    }
}

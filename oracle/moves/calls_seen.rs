//! How often each drawn call gave each number, and what became of what is carried.

use crate::calls::Name;
use crate::lent::{Lent, CARRIED_ROW, DURATION};
use crate::model::{reasons, tested};
use oracle::tables::MOST_BLOCKS;
use std::collections::BTreeMap;

/// The numbers that each call can give; refusals in the order of their tests.
const NUMBERS: [(Name, &[u32]); 5] = [
    (Name::Hold, &[0, 5, 6]),
    (Name::Timing, &[0, 16, 11, 5, 6, 8, 9, 10]),
    (Name::Ramp, &[0, 16, 11, 5, 6]),
    (Name::Carry, &[0, 16, 11, 5, 6, 8, 9, 10]),
    (Name::Drop, &[0]),
];

/// Pairs of which the first is given where there is a reason for both.
const ORDERS: [(u32, u32); 6] = [(16, 11), (11, 5), (5, 6), (6, 8), (6, 9), (6, 10)];

const GOES_ON: &str = "timing: the carried ramp goes on";
const DROPPED: &str = "timing: other kinds drop it";
const NOTHING: &str = "timing: nothing is carried";
const RUNS: &str = "ramp: the carried ramp runs";
const BLOCK_RUNS: &str = "ramp: a block's ramp runs";
const STANDS: &str = "ramp: a row stands";
const FROM_START: &str = "carry: a block's ramp, from the start rows";
const FROM_BLOCK: &str = "carry: a block's ramp, from a block's rows";
const LONGER: &str = "carry: the carried ramp";
const NO_MORE: &str = "carry: nothing any more";
const NEVER: &str = "carry: nothing, and nothing was carried";
const TIMING_TWIN: &str = "timing: rule 1 beside the call without a rule";
const RAMP_TWIN: &str = "ramp: rule 1 beside the call without a rule";
const OUTCOMES: [&str; 13] = [
    GOES_ON,
    DROPPED,
    NOTHING,
    RUNS,
    BLOCK_RUNS,
    STANDS,
    FROM_START,
    FROM_BLOCK,
    LONGER,
    NO_MORE,
    NEVER,
    TIMING_TWIN,
    RAMP_TWIN,
];

#[derive(Default)]
pub struct CallsSeen {
    calls: u64,
    numbers: BTreeMap<(Name, u32), u64>,
    orders: BTreeMap<(Name, u32, u32), u64>,
    outcomes: BTreeMap<&'static str, u64>,
}

impl CallsSeen {
    /// The reasons for refusals that a call meets.
    pub fn asked(&mut self, name: Name, lent: &Lent) {
        self.calls += 1;
        let mut reasons = reasons(name, lent);
        let timed = matches!(name, Name::Timing | Name::Carry);
        if timed && lent.blocks as usize <= MOST_BLOCKS {
            reasons.push(tested(lent));
        }
        if let [given, next, ..] = reasons[..] {
            *self.orders.entry((name, given, next)).or_default() += 1;
        }
    }

    /// The right number, and what was lent before and afterwards.
    pub fn answered(&mut self, name: Name, number: u32, [before, after]: [&Lent; 2]) {
        *self.numbers.entry((name, number)).or_default() += 1;
        let [carried, carries] = [before, after].map(|lent| lent.state[DURATION] > 0);
        let [from, to, ..] = after.answer;
        let outcome = match name {
            _ if number != 0 => return,
            Name::Timing if carries => GOES_ON,
            Name::Timing if carried && after.rule == 2 => DROPPED,
            Name::Timing => NOTHING,
            Name::Ramp if from == CARRIED_ROW => RUNS,
            Name::Ramp if from == to => STANDS,
            Name::Ramp => BLOCK_RUNS,
            Name::Carry if !carries && carried => NO_MORE,
            Name::Carry if !carries => NEVER,
            Name::Carry if after.blocks == 0 => LONGER,
            Name::Carry if after.blocks == 1 => FROM_START,
            Name::Carry => FROM_BLOCK,
            Name::Hold | Name::Drop => return,
        };
        self.count(outcome);
    }

    /// A call of rule 1 that is held against the one without a rule.
    pub fn twin(&mut self, name: Name) {
        let timing = name == Name::Timing;
        self.count(if timing { TIMING_TWIN } else { RAMP_TWIN });
    }

    fn count(&mut self, outcome: &'static str) {
        *self.outcomes.entry(outcome).or_default() += 1;
    }

    /// Everything that is to be seen, and how often it was.
    fn all(&self) -> Vec<(String, u64)> {
        let mut all = Vec::new();
        for (name, numbers) in NUMBERS {
            for &number in numbers {
                let times = self.numbers.get(&(name, number));
                all.push((format!("{name:?} {number}"), times));
            }
            let has = |number| numbers.contains(number);
            for (one, other) in ORDERS.iter().filter(|(one, other)| has(one) && has(other)) {
                let times = self.orders.get(&(name, *one, *other));
                all.push((
                    format!("{name:?} {one}, with a reason for {other} too"),
                    times,
                ));
            }
        }
        let outcomes = OUTCOMES.iter();
        all.extend(outcomes.map(|outcome| (outcome.to_string(), self.outcomes.get(outcome))));
        let counted = all.into_iter();
        counted
            .map(|(what, times)| (what, times.copied().unwrap_or(0)))
            .collect()
    }

    pub fn print(&self) {
        println!("drawn calls:");
        for (what, times) in self.all() {
            println!("{times:9} {what}");
        }
        println!("drawn calls {}", self.calls);
    }

    pub fn unseen(&self) -> Vec<String> {
        let unseen = self.all().into_iter().filter(|(_, times)| *times == 0);
        unseen.map(|(what, _)| what).collect()
    }
}

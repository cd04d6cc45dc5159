//! Drawn calls, each against the model of it: the number, every answer, and every lent number afterwards.

use crate::calls::{ramp_without_rule, timing_without_rule, Calls, Name};
use crate::calls_seen::CallsSeen;
use crate::difference::{number, Difference};
use crate::lent::{compare, Lent, START};
use crate::model::BY_WORDS;
use crate::questions::{draw, fill};
use oracle::random::Random;
use oracle::tables::{MOST_OBJECTS, START_LENGTH};

/// Each name so often as it is to be drawn.
const TURNS: [Name; 16] = [
    Name::Hold,
    Name::Hold,
    Name::Timing,
    Name::Timing,
    Name::Timing,
    Name::Timing,
    Name::Timing,
    Name::Ramp,
    Name::Ramp,
    Name::Ramp,
    Name::Carry,
    Name::Carry,
    Name::Carry,
    Name::Carry,
    Name::Carry,
    Name::Drop,
];

pub struct DrawnCalls {
    random: Random,
    calls: Calls,
    found: Lent,
    pub seen: CallsSeen,
}

impl DrawnCalls {
    pub fn new(seed: u64, calls: Calls) -> Self {
        let mut drawn = DrawnCalls {
            random: Random::new(seed),
            calls,
            found: Lent::new(),
            seen: CallsSeen::default(),
        };
        fill(&mut drawn.random, &mut drawn.found);
        drawn
    }

    /// One call, on tables and numbers that are drawn.
    pub fn case(&mut self) -> Result<(), Difference> {
        let name = self.random.pick(&TURNS);
        draw(&mut self.random, &mut self.found, name);
        let mut expected = self.found.clone();
        let right = BY_WORDS.make(name, &mut expected);
        self.seen.asked(name, &self.found);
        self.seen.answered(name, right, [&self.found, &expected]);
        let given = self.calls.make(name, &mut self.found);
        number("number", right, given)
            .and_then(|()| compare(name, &expected, &self.found))
            .and_then(|()| self.twin(name, given))
            .map_err(|difference| difference.within(&format!("{name:?}")))
    }

    /// With at most 128 objects and a whole start table, rule 1 answers as the calls without a rule do.
    fn twin(&mut self, name: Name, given: u32) -> Result<(), Difference> {
        let lent = &mut self.found;
        let whole = lent.objects as usize <= MOST_OBJECTS && lent.lengths[START] >= START_LENGTH;
        if lent.rule != 1 || !whole || !matches!(name, Name::Timing | Name::Ramp) {
            return Ok(());
        }
        self.seen.twin(name);
        if name == Name::Timing {
            return number("number without a rule", given, timing_without_rule(lent));
        }
        let expected = lent.clone();
        lent.forget_answers();
        number("number without a rule", given, ramp_without_rule(lent))?;
        compare(name, &expected, lent).map_err(|difference| difference.within("without a rule"))
    }
}

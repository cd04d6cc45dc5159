//! Whole bytes appended to a truncated payload: what the proved decoder has to say to the longer one.
//!
//! Where the payload's end cut the read, fewer bits than are missing leave that many fewer missing, and at
//! least as many lead past the place. Where an element's end cut it, appended bytes change nothing.

use crate::difference::{self, number, Difference};
use crate::proved::Tables;
use crate::seen::{Seen, ENOUGH, FEWER, INSIDE};
use crate::spoil::{spoil_answer, ANSWERS};
use oracle::answer::LONGEST_PAYLOAD;
use oracle::context::PROGRAM_ASSIGNMENT_OBJECT_COUNT;
use oracle::listener::Said;
use oracle::random::Random;

/// The last context of what stands outside of elements.
const LAST_OUTSIDE: u32 = PROGRAM_ASSIGNMENT_OBJECT_COUNT as u32;
/// Fewer bytes than this are drawn beyond those that are asked for.
const SPARE: u32 = 20;

pub struct Appended {
    /// Of a decoder of its own: what is retained changes no refusal.
    tables: Tables,
    random: Random,
    /// A wrong answer to a longer payload, once.
    pub fault: Option<Fault>,
}

#[derive(Clone, Copy, Debug, PartialEq, Eq)]
pub enum Fault {
    /// One number is wrong, where the whole answer is known.
    Number(&'static str, usize),
    /// The answer to the payload alone.
    NotHeard(&'static str),
    /// A cut before the place, though enough was appended.
    CutBefore,
}

impl Appended {
    pub fn new(seed: u64) -> Self {
        Appended {
            tables: Tables::new(),
            random: Random::new(seed),
            fault: None,
        }
    }

    /// A truncated payload, and what was said to it.
    pub fn check(
        &mut self,
        payload: &[u8],
        said: &Said,
        seen: &mut Seen,
    ) -> Result<(), Difference> {
        let room = LONGEST_PAYLOAD - payload.len();
        let spare = self.random.below(SPARE) as usize;
        if said.context > LAST_OUTSIDE {
            seen.count(INSIDE);
            let found = self.longer(INSIDE, payload, room.min(1 + spare), said);
            return difference::said(said, &found).map_err(|other| other.within(INSIDE));
        }
        let enough = said.missing.div_ceil(8) as usize;
        let most = room.min(enough - 1);
        if most > 0 {
            seen.count(FEWER);
            let any = 1 + self.random.index(most);
            let bytes = self.random.pick(&[1, most, any]);
            self.fewer(payload, bytes, said)?;
        }
        if enough <= room {
            seen.count(ENOUGH);
            let bytes = self.random.pick(&[enough, room.min(enough + spare)]);
            self.enough(payload, bytes, said)?;
        }
        Ok(())
    }

    fn fewer(&mut self, payload: &[u8], bytes: usize, said: &Said) -> Result<(), Difference> {
        let expected = Said {
            missing: said.missing - 8 * bytes as u32,
            ..*said
        };
        let found = self.longer(FEWER, payload, bytes, said);
        difference::said(&expected, &found).map_err(|other| other.within(FEWER))
    }

    fn enough(&mut self, payload: &[u8], bytes: usize, said: &Said) -> Result<(), Difference> {
        let found = self.longer(ENOUGH, payload, bytes, said);
        let cut = found.number == said.number && found.place <= said.place;
        number("cut there or before", false, cut).map_err(|other| other.within(ENOUGH))
    }

    /// What is said to the payload with so many drawn bytes behind it.
    fn longer(&mut self, case: &'static str, payload: &[u8], bytes: usize, said: &Said) -> Said {
        let mut longer = payload.to_vec();
        longer.extend((0..bytes).map(|_| self.random.next() as u8));
        let mut found = self.tables.decode(&longer);
        if let Some(fault) = self.fault.take_if(|fault| fault.case() == case) {
            fault.plant(&mut found, said);
        }
        found
    }
}

impl Fault {
    pub fn all() -> Vec<Fault> {
        let numbers = |case| (0..ANSWERS).map(move |index| Fault::Number(case, index));
        let mut all: Vec<Fault> = [FEWER, INSIDE].into_iter().flat_map(numbers).collect();
        all.extend([FEWER, ENOUGH].map(Fault::NotHeard));
        all.push(Fault::CutBefore);
        all
    }

    fn case(self) -> &'static str {
        match self {
            Fault::Number(case, _) | Fault::NotHeard(case) => case,
            Fault::CutBefore => ENOUGH,
        }
    }

    fn plant(self, found: &mut Said, alone: &Said) {
        match self {
            Fault::Number(_, index) => spoil_answer(found, index),
            Fault::NotHeard(_) => *found = *alone,
            Fault::CutBefore => {
                *found = *alone;
                found.place = alone.place.saturating_sub(1);
            }
        }
    }
}

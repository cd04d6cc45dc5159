//! All that a rack lends to the calls, and what they hand back, in one record.

use crate::calls::Name;
use crate::difference::{self, Difference, Shape};
use crate::proved::Tables;
use oracle::tables::{ROW_WIDTH, START_LENGTH, TIMINGS_LENGTH};

/// Numbers that are lent behind the carried rows' needed length.
const BEHIND: usize = 19;
/// What stands in an answer before a call: no number of an answer is so large.
const NO_ANSWER: u32 = 0xa5a5_a5a5;

/// The place of each table's length.
pub const RETAINED: usize = 0;
pub const START: usize = 1;
pub const BLOCKS: usize = 2;
pub const TIMINGS: usize = 3;
pub const CARRIED: usize = 4;

/// The place of each number of a state.
pub const OBJECTS: usize = 0;
pub const ELAPSED: usize = 1;
pub const DURATION: usize = 2;
pub const STATE: usize = 3;

/// The row number that says the carried row.
pub const CARRIED_ROW: u32 = 9;
pub const RAMP: usize = 4;

#[derive(Clone)]
pub struct Lent {
    pub rule: u32,
    pub blocks: u32,
    pub objects: u32,
    pub sample: u32,
    pub tables: Tables,
    pub carried: Vec<i16>,
    /// How many numbers of each table are lent.
    pub lengths: [usize; 5],
    /// Here and below, one number more than is lent.
    pub state: [u16; STATE + 1],
    /// From, to, elapsed, duration.
    pub answer: [u32; RAMP + 1],
    /// By its bits.
    pub fraction: [u32; 2],
    /// How many objects hold gave.
    pub held: [u32; 2],
}

impl Lent {
    pub fn new() -> Self {
        let mut lent = Lent {
            rule: 0,
            blocks: 0,
            objects: 0,
            sample: 0,
            tables: Tables::new(),
            carried: vec![0; START_LENGTH + BEHIND],
            lengths: [0; 5],
            state: [0, 0, 0, 0x5a5a],
            answer: [NO_ANSWER; RAMP + 1],
            fraction: [NO_ANSWER; 2],
            held: [NO_ANSWER; 2],
        };
        lent.lengths = lent.whole();
        lent
    }

    /// Every table in its whole length.
    pub fn whole(&self) -> [usize; 5] {
        let [retained, start, blocks, timings] = self.tables.lengths();
        [retained, start, blocks, timings, self.carried.len()]
    }

    pub fn forget_answers(&mut self) {
        self.answer = [NO_ANSWER; RAMP + 1];
        self.fraction = [NO_ANSWER; 2];
        self.held = [NO_ANSWER; 2];
    }

    pub fn set_state(&mut self, state: [u16; STATE]) {
        self.state[..STATE].copy_from_slice(&state);
    }

    /// Start and ramp of each block, as far as the table goes.
    pub fn timings(&self) -> &[[u16; 2]] {
        let (pairs, _) = self.tables.timings.as_chunks();
        &pairs[..pairs.len().min(self.blocks as usize)]
    }

    /// The rows of all objects that a row number of an answer says.
    pub fn rows(&self, row_number: u32) -> Option<&[i16]> {
        let width = self.objects as usize * ROW_WIDTH;
        let (table, begin) = match row_number {
            0 => (&self.tables.start, 0),
            CARRIED_ROW => (&self.carried, 0),
            block if block <= self.blocks => (&self.tables.blocks, (block as usize - 1) * width),
            _ => return None,
        };
        table.get(begin..begin + width)
    }
}

/// The first number that differs, of those that the call could have changed.
pub fn compare(name: Name, expected: &Lent, found: &Lent) -> Result<(), Difference> {
    const CARRIED: &Shape = &Shape::new("carried", 0, ROW_WIDTH, START_LENGTH);
    const TIMINGS: &Shape = &Shape::new("timings", 0, 2, TIMINGS_LENGTH);
    const STATE: &Shape = &Shape::new("state", 0, 3, 3);
    const FRACTION: &Shape = &Shape::new("fraction", 0, 1, 1);
    const HELD: &Shape = &Shape::new("objects", 0, 1, 1);
    const ANSWER: &Shape = &Shape::new("answer", 0, RAMP, RAMP);
    difference::table(STATE, &expected.state, &found.state)?;
    difference::table(ANSWER, &expected.answer, &found.answer)?;
    difference::table(FRACTION, &expected.fraction, &found.fraction)?;
    difference::table(HELD, &expected.held, &found.held)?;
    if name == Name::Ramp {
        return difference::table(TIMINGS, &expected.tables.timings, &found.tables.timings);
    }
    difference::tables(&expected.tables, &found.tables)?;
    difference::table(CARRIED, &expected.carried, &found.carried)
}

//! Numbers to be expected wrongly, one of each sort: a comparison that misses one of them is blind there.

use crate::proved::{Tables, NEEDED};
use oracle::call::{Call, CALLS};
use oracle::listener::Said;
use oracle::tables::{RETAINED_HEAD, ROW_WIDTH};

#[derive(Clone, Copy, Debug, PartialEq, Eq)]
pub enum Moment {
    Accepted,
    Refused,
    /// Decode, refused by 5, 6 or 7, which leave every table as it was.
    Untouched,
    /// A call on the retained table alone.
    Called(Call),
    /// The same, refused by 5 or 6.
    Declined(Call),
}

#[derive(Clone, Copy, Debug, PartialEq, Eq)]
pub enum Place {
    /// A number of the answer.
    Answer(usize),
    /// A number of a table, by its index.
    At(usize, usize),
    /// The first number behind the used ones, where that is still needed length.
    BehindUsed(usize),
    LastNeeded(usize),
    BehindNeeded(usize),
    Last(usize),
}

/// Spoils the first moment of its sort that has the place.
#[derive(Clone, Copy, Debug)]
pub struct Spoil {
    pub moment: Moment,
    pub place: Place,
    pub done: bool,
}

/// The number given back, and those of the answer.
pub const ANSWERS: usize = 7;

/// One spoil of each sort.
pub fn spoils() -> Vec<Spoil> {
    let decoded = [Moment::Accepted, Moment::Refused, Moment::Untouched];
    let called = CALLS.map(Moment::Called).into_iter();
    let declined = CALLS.map(Moment::Declined);
    let moments = decoded.into_iter().chain(called).chain(declined);
    let mut all = Vec::new();
    for moment in moments {
        let places = places(moment);
        all.extend(places.into_iter().map(|place| Spoil {
            moment,
            place,
            done: false,
        }));
    }
    all
}

fn places(moment: Moment) -> Vec<Place> {
    let answers = match moment {
        Moment::Called(_) | Moment::Declined(_) => 1,
        _ => ANSWERS,
    };
    let mut places: Vec<Place> = (0..answers).map(Place::Answer).collect();
    for (table, rows_begin) in [RETAINED_HEAD, 0, 0, 0].into_iter().enumerate() {
        // The head and one row, or the numbers that stand there.
        let first = (rows_begin + ROW_WIDTH).min(NEEDED[table]);
        places.extend((0..first).map(|index| Place::At(table, index)));
        if moment == Moment::Accepted {
            places.push(Place::BehindUsed(table));
        }
        places.extend([
            Place::LastNeeded(table),
            Place::BehindNeeded(table),
            Place::Last(table),
        ]);
    }
    places
}

impl Spoil {
    pub fn apply(&mut self, moment: Moment, said: &mut Said, tables: &mut Tables) {
        if self.done || moment != self.moment {
            return;
        }
        self.done = match self.place {
            Place::Answer(index) => {
                spoil_answer(said, index);
                true
            }
            Place::At(table, index) => spoil_number(tables, table, index),
            Place::BehindUsed(table) => spoil_number(tables, table, used(said, table)),
            Place::LastNeeded(table) => spoil_number(tables, table, NEEDED[table] - 1),
            Place::BehindNeeded(table) => spoil_number(tables, table, NEEDED[table]),
            Place::Last(table) => spoil_number(tables, table, tables.lengths()[table] - 1),
        };
    }
}

/// How many numbers of a table an accepted payload uses.
fn used(said: &Said, table: usize) -> usize {
    let row = said.objects as usize * ROW_WIDTH;
    let blocks = said.blocks as usize;
    [RETAINED_HEAD + row, row, row * blocks, 2 * blocks][table]
}

pub fn spoil_answer(said: &mut Said, index: usize) {
    let numbers = [
        &mut said.number,
        &mut said.context,
        &mut said.place,
        &mut said.objects,
        &mut said.blocks,
        &mut said.unsettled,
        &mut said.missing,
    ];
    *numbers.into_iter().nth(index).expect("seven numbers") ^= 1;
}

fn spoil_number(tables: &mut Tables, table: usize, index: usize) -> bool {
    match table {
        0 => tables.retained[index] ^= 1,
        1 => tables.start[index] ^= 1,
        2 => tables.blocks[index] ^= 1,
        _ => tables.timings[index] ^= 1,
    }
    true
}

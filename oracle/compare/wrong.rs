//! Numbers to be heard wrongly by the decoder that heard all: some that demand 3 binds, and some that it leaves free.

use crate::heard_all::{Before, Table, KIND, PICTURE};
use crate::proved::Tables;
use crate::spoil::ANSWERS;
use oracle::answer::Frame;
use oracle::tables::{ACTIVE, ALL_SETTLED, LOCK, MARK, NONE_SETTLED, ROW_WIDTH, X};
use std::ops::Range;

/// Which number is heard wrongly.
#[derive(Clone, Copy, Debug, PartialEq, Eq)]
pub enum Wrong {
    /// A number of a refusal.
    Refusal(usize),
    Timing,
    /// A column that has to agree, in such a row.
    Bound(Table, Rows, usize),
    /// A column that need not agree: this must not be found.
    Free(Table, Rows, usize),
}

/// Which rows are meant.
#[derive(Clone, Copy, Debug, PartialEq, Eq)]
pub enum Rows {
    Any,
    /// No group is settled.
    Unsettled,
    /// Some groups are settled, and others are not.
    InPart,
    /// The proved decoder is astray.
    Astray,
}

/// Activity, gain and priority.
const SOUND: Range<usize> = ACTIVE..X;

type Columns = (Table, Rows, Range<usize>);

const BOUND: [Columns; 7] = [
    (Table::Start, Rows::Any, 0..MARK),
    (Table::Start, Rows::Unsettled, SOUND),
    (Table::Start, Rows::InPart, ACTIVE..MARK),
    (Table::Start, Rows::Astray, KIND),
    (Table::Block, Rows::Any, 0..MARK),
    (Table::Block, Rows::InPart, PICTURE),
    (Table::Block, Rows::Astray, 0..X),
];

const FREE: [Columns; 6] = [
    (Table::Start, Rows::Unsettled, ACTIVE..MARK),
    (Table::Start, Rows::InPart, PICTURE),
    (Table::Start, Rows::Astray, ACTIVE..MARK),
    (Table::Block, Rows::Unsettled, PICTURE),
    (Table::Block, Rows::InPart, PICTURE),
    (Table::Block, Rows::Astray, PICTURE),
];

impl Wrong {
    pub fn all() -> Vec<Wrong> {
        let mut all: Vec<Wrong> = (0..ANSWERS).map(Wrong::Refusal).collect();
        all.push(Wrong::Timing);
        for (table, rows, columns) in BOUND {
            all.extend(columns.map(|column| Wrong::Bound(table, rows, column)));
        }
        for (table, rows, columns) in FREE {
            // The lock is read with every other group, so in part it is settled.
            let free = columns.filter(|&column| rows != Rows::InPart || column != LOCK);
            all.extend(free.map(|column| Wrong::Free(table, rows, column)));
        }
        all
    }

    pub fn is_found(self) -> bool {
        !matches!(self, Wrong::Free(..))
    }

    /// Answers whether the frame has such a number.
    pub fn apply(self, frame: &mut Frame, tables: &Tables, before: Before) -> bool {
        let (table, rows, column) = match self {
            Wrong::Refusal(_) => return false,
            Wrong::Timing => {
                frame.timings[0][0] ^= 1;
                return true;
            }
            Wrong::Bound(table, rows, column) | Wrong::Free(table, rows, column) => {
                (table, rows, column)
            }
        };
        let (heard, found) = match table {
            Table::Start => (&mut frame.start, &tables.start),
            Table::Block => (&mut frame.blocks, &tables.blocks),
        };
        let suits =
            |row| rows.suit(row, before) && before.binds(table, column, row) == self.is_found();
        let mut pairs = heard.iter_mut().zip(found.chunks(ROW_WIDTH));
        let first = pairs.find(|(_, found)| suits(found));
        first.map(|(heard, _)| heard[column] ^= 1).is_some()
    }
}

impl Rows {
    fn suit(self, row: &[i16], before: Before) -> bool {
        let mark = row[MARK];
        match self {
            Rows::Any => true,
            Rows::Unsettled => mark == NONE_SETTLED && !before.astray,
            Rows::InPart => ![NONE_SETTLED, ALL_SETTLED].contains(&mark) && !before.astray,
            Rows::Astray => before.astray,
        }
    }
}

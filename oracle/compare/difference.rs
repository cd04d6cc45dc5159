//! The first number in which an answer or a table differs from what is expected.

use crate::proved::Tables;
use oracle::listener::Said;
use oracle::tables::{BLOCKS_LENGTH, RETAINED_LENGTH, START_LENGTH, TIMINGS_LENGTH};
use oracle::tables::{COLUMNS, RETAINED_HEAD, ROW_WIDTH};
use std::fmt;

#[derive(Clone, Debug, PartialEq, Eq)]
pub struct Difference {
    pub part: String,
    pub expected: i64,
    pub found: i64,
}

impl Difference {
    /// The same, with where it was found.
    pub fn within(self, part: &str) -> Self {
        Difference {
            part: format!("{part}: {}", self.part),
            ..self
        }
    }
}

impl fmt::Display for Difference {
    fn fmt(&self, formatter: &mut fmt::Formatter<'_>) -> fmt::Result {
        let Difference {
            part,
            expected,
            found,
        } = self;
        write!(formatter, "{part}: expected {expected}, found {found}")
    }
}

/// Both numbers, where they differ.
pub fn number(
    part: &str,
    expected: impl Into<i64>,
    found: impl Into<i64>,
) -> Result<(), Difference> {
    let (expected, found) = (expected.into(), found.into());
    if expected == found {
        return Ok(());
    }
    Err(Difference {
        part: part.to_string(),
        expected,
        found,
    })
}

pub fn said(expected: &Said, found: &Said) -> Result<(), Difference> {
    number("number", expected.number, found.number)?;
    number("context", expected.context, found.context)?;
    number("place", expected.place, found.place)?;
    number("objects", expected.objects, found.objects)?;
    number("blocks", expected.blocks, found.blocks)?;
    number("unsettled", expected.unsettled, found.unsettled)?;
    number("missing", expected.missing, found.missing)
}

pub fn tables(expected: &Tables, found: &Tables) -> Result<(), Difference> {
    const TIMINGS: &Shape = &Shape::new("timings", 0, 2, TIMINGS_LENGTH);
    const START: &Shape = &Shape::new("start", 0, ROW_WIDTH, START_LENGTH);
    const BLOCKS: &Shape = &Shape::new("blocks", 0, ROW_WIDTH, BLOCKS_LENGTH);
    const RETAINED: &Shape = &Shape::new("retained", RETAINED_HEAD, ROW_WIDTH, RETAINED_LENGTH);
    table(TIMINGS, &expected.timings, &found.timings)?;
    table(START, &expected.start, &found.start)?;
    table(BLOCKS, &expected.blocks, &found.blocks)?;
    table(RETAINED, &expected.retained, &found.retained)
}

/// A table: rows of a width behind a head, up to the needed length.
pub struct Shape {
    name: &'static str,
    head: usize,
    width: usize,
    needed: usize,
}

impl Shape {
    pub const fn new(name: &'static str, head: usize, width: usize, needed: usize) -> Self {
        Shape {
            name,
            head,
            width,
            needed,
        }
    }

    /// What the number at an index is.
    fn part(&self, at: usize) -> String {
        let Shape { name, width, .. } = self;
        if at < self.head {
            return format!("{name} head {at}");
        }
        if at >= self.needed {
            return format!("{name}, {} behind the needed length", at - self.needed);
        }
        let (row, column) = ((at - self.head) / width, (at - self.head) % width);
        if *width == ROW_WIDTH {
            return format!("{name} row {row} {}", COLUMNS[column]);
        }
        format!("{name} row {row} number {column}")
    }
}

pub fn table<N>(shape: &Shape, expected: &[N], found: &[N]) -> Result<(), Difference>
where
    N: Copy + PartialEq + Into<i64>,
{
    if expected == found {
        return Ok(());
    }
    let mut pairs = expected.iter().zip(found);
    let at = pairs
        .position(|(expected, found)| expected != found)
        .expect("equal lengths");
    number(&shape.part(at), expected[at], found[at])
}

//! A Rust decoder that heard every payload, beside a proved one that missed some and was told so.
//!
//! What must agree: refusals, kinds, timings, and in block rows activity, gain and priority. Unless the
//! proved one is astray, so must each group of the picture that the row's mark calls settled, and in start
//! rows activity, gain and priority, unless doubt stood, by a gap notice or a reset.

use crate::difference::{self, number, Difference};
use crate::events::{Event, Following};
use crate::proved::Tables;
use crate::spoil::spoil_answer;
use crate::wrong::Wrong;
use oracle::answer::{Frame, Oracle, Row};
use oracle::call::Call;
use oracle::listener::Said;
use oracle::marks::reversed;
use oracle::tables::{group_bit, ACTIVE, COLUMNS, GROUP_BITS, MARK, NONE_SETTLED, ROW_WIDTH, X};
use std::ops::Range;

/// The kind and the picture, as columns of a row.
pub const KIND: Range<usize> = 0..ACTIVE;
pub const PICTURE: Range<usize> = X..MARK;

#[derive(Default)]
pub struct HeardAll {
    oracle: Oracle,
    /// How the proved decoder follows.
    pub following: Following,
    /// A number to be heard wrongly, once.
    pub spoil: Option<Wrong>,
    pub breach: Option<Breach>,
}

/// Events that demand 3 does not have, and agreement that it does not promise: each must show.
#[derive(Clone, Copy, Debug, PartialEq, Eq)]
pub enum Breach {
    /// A programme start goes to the proved decoder alone.
    StartToOne,
    /// What the proved decoder hears astray is compared in full.
    AstrayCompared,
    /// Activity, gain and priority of start rows are compared though doubt stood.
    DoubtCompared,
    /// The group of this bit is compared, settled or not.
    UnsettledCompared(i16),
    /// A row with one settled group is compared in full.
    OneForAll,
    BitsReversed,
}

impl Breach {
    pub fn all() -> Vec<Breach> {
        let mut all = vec![
            Breach::StartToOne,
            Breach::AstrayCompared,
            Breach::DoubtCompared,
            Breach::OneForAll,
            Breach::BitsReversed,
        ];
        all.extend(GROUP_BITS.map(Breach::UnsettledCompared));
        all
    }
}

#[derive(Clone, Copy, Debug, PartialEq, Eq)]
pub enum Table {
    Start,
    Block,
}

/// What stood before a payload that both hear.
#[derive(Clone, Copy)]
pub struct Before {
    doubted: bool,
    pub astray: bool,
    breach: Option<Breach>,
}

impl Before {
    /// Whether a column of a row has to agree. Of a block row the payload tells all but the picture.
    pub fn binds(self, table: Table, column: usize, row: &[i16]) -> bool {
        if PICTURE.contains(&column) {
            return self.calls_settled(column, row[MARK]) && !self.astray;
        }
        let told = table == Table::Block || (!self.doubted && !self.astray);
        told || KIND.contains(&column)
    }

    /// Whether a mark calls a column of the picture settled.
    fn calls_settled(self, column: usize, mark: i16) -> bool {
        let bit = group_bit(column);
        match self.breach {
            Some(Breach::UnsettledCompared(group)) if group == bit => true,
            Some(Breach::OneForAll) => mark != NONE_SETTLED,
            Some(Breach::BitsReversed) => reversed(mark) & bit != 0,
            _ => mark & bit != 0,
        }
    }
}

impl HeardAll {
    pub fn call(&mut self, call: Call) {
        if call != Call::Start || self.breach != Some(Breach::StartToOne) {
            self.oracle.call(call);
        }
    }

    pub fn follow(&mut self, event: Event) {
        self.following = self.following.after(event);
    }

    /// It is astray where it cannot know that it missed something.
    fn before(&self, doubted: bool) -> Before {
        let astray = self.following == Following::Astray;
        Before {
            doubted: doubted && self.breach != Some(Breach::DoubtCompared),
            astray: astray && self.breach != Some(Breach::AstrayCompared),
            breach: self.breach,
        }
    }

    /// A payload that the proved decoder misses.
    pub fn hear(&mut self, payload: &[u8]) {
        let _ = self.oracle.decode(payload);
    }

    /// A payload that both hear. `doubted` says whether the proved decoder's doubt stood before it.
    pub fn compare(
        &mut self,
        payload: &[u8],
        said: &Said,
        tables: &Tables,
        doubted: bool,
    ) -> Result<(), Difference> {
        match self.oracle.decode(payload) {
            Err(refusal) => {
                let mut heard = Said::from(refusal);
                if let Some(Wrong::Refusal(index)) = self.spoil {
                    spoil_answer(&mut heard, index);
                    self.spoil = None;
                }
                difference::said(&heard, said).map_err(|other| other.within("heard all"))
            }
            Ok(mut frame) => {
                number("heard all: number", 0, said.number)?;
                let before = self.before(doubted);
                self.spoil
                    .take_if(|wrong| wrong.apply(&mut frame, tables, before));
                compare_frame(&frame, said, tables, before)
            }
        }
    }
}

fn compare_frame(
    frame: &Frame,
    said: &Said,
    tables: &Tables,
    before: Before,
) -> Result<(), Difference> {
    number("heard all: objects", frame.kinds.len() as u32, said.objects)?;
    number("heard all: blocks", frame.timings.len() as u32, said.blocks)?;
    for (heard, &found) in frame.timings.as_flattened().iter().zip(&tables.timings) {
        number("heard all: timings", *heard, found)?;
    }
    compare_rows(Table::Start, &frame.start, &tables.start, before)?;
    compare_rows(Table::Block, &frame.blocks, &tables.blocks, before)
}

fn compare_rows(
    table: Table,
    heard: &[Row],
    found: &[i16],
    before: Before,
) -> Result<(), Difference> {
    for (heard, found) in heard.iter().zip(found.chunks(ROW_WIDTH)) {
        let bound = (0..MARK).filter(|&column| before.binds(table, column, found));
        let mut differing = bound.filter(|&column| heard[column] != found[column]);
        if let Some(column) = differing.next() {
            let part = format!("heard all: {table:?} {}", COLUMNS[column]);
            return number(&part, heard[column], found[column]);
        }
    }
    Ok(())
}

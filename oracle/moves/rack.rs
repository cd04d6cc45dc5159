//! A small player: it lends tables and makes the calls as a rack does, and holds each against what is expected.

use crate::calls::{Calls, Name};
use crate::difference::{number, Difference};
use crate::lent::{compare, Lent, RAMP, STATE};
use crate::proved::Tables;
use crate::timeline::{objects, Picture, Place};
use oracle::call::Call;
use oracle::tables::{COLUMNS, COUNT, DOUBT, RETAINED_HEAD, RETAINED_LENGTH, ROW_WIDTH};

/// What was heard for a frame: the rows before its first block, and a start, a ramp and rows for each block.
pub struct Heard {
    pub start: Picture,
    pub timings: Vec<[u16; 2]>,
    pub blocks: Vec<Picture>,
}

pub struct Rack {
    pub calls: Calls,
    expected: Lent,
    found: Lent,
    frames: u16,
}

impl Rack {
    pub fn new(calls: Calls) -> Self {
        let mut rack = Rack {
            calls,
            expected: Lent::new(),
            found: Lent::new(),
            frames: 0,
        };
        // No row is in form but those that carry writes.
        rack.found.carried.fill(-1);
        rack.agree();
        rack
    }

    /// What is expected begins with what stands there.
    fn agree(&mut self) {
        self.expected.clone_from(&self.found);
    }

    /// A new frame. All but what is retained and carried becomes a number that no table can hold.
    pub fn turn(&mut self, rule: u32) {
        self.frames = self.frames.wrapping_add(1);
        let sentinel = 0x4000 | (self.frames & 0x3fff) as i16;
        self.found.tables.fill(sentinel);
        self.found.rule = rule;
        self.found.blocks = 0;
        self.found.forget_answers();
        self.agree();
    }

    /// A gap notice, a reset or a programme start drops what is carried.
    pub fn call(&mut self, call: Call) -> Result<(), Difference> {
        let tables = &mut self.found.tables;
        let given = tables.call_lent(call, tables.retained.len());
        number("a call on what is retained", 0, given)?;
        self.agree();
        self.expected.set_state([0; STATE]);
        self.make(Name::Drop, 0)
    }

    pub fn doubts(&self) -> bool {
        self.found.tables.retained[DOUBT] == 1
    }

    /// A frame as a decoder would have written it, which retains the last block.
    pub fn write(&mut self, heard: &Heard) {
        let Tables {
            retained,
            start,
            blocks,
            timings,
        } = &mut self.found.tables;
        let width = heard.start.len();
        start[..width].copy_from_slice(&heard.start);
        for (index, rows) in heard.blocks.iter().enumerate() {
            blocks[index * width..][..width].copy_from_slice(rows);
        }
        let numbers = heard.timings.as_flattened();
        timings[..numbers.len()].copy_from_slice(numbers);
        let last = heard
            .blocks
            .last()
            .expect("a frame that is heard has blocks");
        retained[..RETAINED_LENGTH].fill(0);
        retained[COUNT] = objects(last) as i16;
        retained[RETAINED_HEAD..RETAINED_HEAD + width].copy_from_slice(last);
        self.take(heard.blocks.len() as u32, objects(&heard.start) as u32);
    }

    /// A payload goes through decode. Answers what it says, if it is accepted.
    pub fn decode(&mut self, payload: &[u8]) -> Option<Heard> {
        let said = self.found.tables.decode(payload);
        self.agree();
        if said.number != 0 {
            return None;
        }
        self.take(said.blocks, said.objects);
        let rows = |number| Picture::from(self.found.rows(number).expect("a row of the frame"));
        Some(Heard {
            start: rows(0),
            timings: self.found.timings().to_vec(),
            blocks: (1..=said.blocks).map(rows).collect(),
        })
    }

    fn take(&mut self, blocks: u32, objects: u32) {
        (self.found.blocks, self.found.objects) = (blocks, objects);
        self.agree();
    }

    /// A frame without blocks, which begins with this picture.
    pub fn hold(&mut self, picture: &Picture) -> Result<(), Difference> {
        self.expected.tables.start[..picture.len()].copy_from_slice(picture);
        self.expected.held[0] = objects(picture) as u32;
        self.make(Name::Hold, 0)?;
        self.found.objects = self.found.held[0];
        self.expected.objects = self.found.objects;
        Ok(())
    }

    pub fn timing(&mut self, number: u32, state: [u16; STATE]) -> Result<(), Difference> {
        self.expected.set_state(state);
        self.make(Name::Timing, number)
    }

    /// Behind a frame that passed; `from` is where a move over the edge comes from.
    pub fn carry(&mut self, state: [u16; STATE], from: Option<&Picture>) -> Result<(), Difference> {
        self.expected.set_state(state);
        if let Some(rows) = from {
            self.expected.carried[..rows.len()].copy_from_slice(rows);
        }
        self.make(Name::Carry, 0)
    }

    fn make(&mut self, name: Name, expected: u32) -> Result<(), Difference> {
        let found = self.calls.make(name, &mut self.found);
        let done = number("number", expected, found);
        done.and_then(|()| compare(name, &self.expected, &self.found))
            .map_err(|difference| difference.within(&format!("{name:?}")))
    }

    /// The rows count by what stands in them, whatever their numbers.
    pub fn ramp(&mut self, sample: u32, place: &Place) -> Result<(), Difference> {
        for lent in [&mut self.found, &mut self.expected] {
            lent.sample = sample;
            lent.forget_answers();
        }
        let given = self.calls.make(Name::Ramp, &mut self.found);
        number("number", 0, given)
            .and_then(|()| self.is_at(place))
            .map_err(|difference| difference.within(&format!("Ramp at {sample}")))
    }

    fn is_at(&mut self, place: &Place) -> Result<(), Difference> {
        let [from, to, elapsed, duration, _] = self.found.answer;
        self.shows("from", from, place.from)?;
        self.shows("to", to, place.to)?;
        number("elapsed", place.elapsed as i64, elapsed)?;
        number("duration", place.duration as i64, duration)?;
        let fraction = place.elapsed as f32 / place.duration as f32;
        self.expected.fraction[0] = fraction.to_bits();
        self.expected.answer[..RAMP].copy_from_slice(&[from, to, elapsed, duration]);
        compare(Name::Ramp, &self.expected, &self.found)
    }

    /// Whether the rows of a number are this picture.
    fn shows(&self, part: &str, row_number: u32, picture: &Picture) -> Result<(), Difference> {
        let Some(rows) = self.found.rows(row_number) else {
            return number(&format!("{part} row, which is none"), -1, row_number);
        };
        if rows == &picture[..] {
            return Ok(());
        }
        let part = format!("{part} row {row_number}");
        let (count, counted) = (objects(picture) as u32, objects(rows) as u32);
        number(&format!("{part}: objects"), count, counted)?;
        let mut pairs = picture.iter().zip(rows);
        let at = pairs
            .position(|(expected, found)| expected != found)
            .expect("equal lengths");
        let column = COLUMNS[at % ROW_WIDTH];
        number(
            &format!("{part}: object {} {column}", at / ROW_WIDTH),
            picture[at],
            rows[at],
        )
    }
}

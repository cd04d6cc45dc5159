//! One payload after another through the Rust decoder, answered in the specification's numbers.

use crate::call::Call;
use crate::distances::{Distances, FrameDistances};
use crate::notes::{noted, Note};
use crate::oamd::{OamdDecoder, OamdFrame, OamdParseError};
use crate::orders::{self, Order};
pub use crate::row::Row;
use crate::row::{kind_and_state, kind_number, rows, unmarked};
use crate::{context, place};

pub const TRUNCATED: u8 = 1;
pub const INVALID: u8 = 2;
pub const LIMIT: u8 = 3;
pub const UNSUPPORTED: u8 = 4;
pub const SIZE: u8 = 7;

/// The specification's longest payload, in bytes. The Rust has no such limit.
pub const LONGEST_PAYLOAD: usize = 16_384;

#[derive(Clone, Copy, Debug, PartialEq, Eq)]
pub struct Refusal {
    pub number: u8,
    pub context: u8,
    pub place: usize,
    pub missing: usize,
}

#[derive(Clone, Debug, PartialEq, Eq)]
pub struct Frame {
    pub kinds: Vec<i16>,
    /// Start and ramp of each block.
    pub timings: Vec<[u16; 2]>,
    pub start: Vec<Row>,
    /// The row of block b, object o stands at b x objects + o.
    pub blocks: Vec<Row>,
    /// What the payload orders, object by object, block by block.
    pub orders: Vec<Order>,
}

#[derive(Default)]
pub struct Oracle {
    decoder: OamdDecoder,
    pub distances: Distances,
}

impl Oracle {
    pub fn decode(&mut self, payload: &[u8]) -> Result<Frame, Refusal> {
        if payload.len() > LONGEST_PAYLOAD {
            return Err(Refusal {
                number: SIZE,
                context: 0,
                place: 0,
                missing: 0,
            });
        }
        match self.decoder.decode(payload) {
            Ok(frame) => Ok(self.numbers(&frame, payload)),
            Err(error) => Err(refusal(&error, payload)),
        }
    }

    fn numbers(&mut self, frame: &OamdFrame, payload: &[u8]) -> Frame {
        let kinds: Vec<i16> = frame.kinds.iter().map(|&kind| kind_number(kind)).collect();
        let orders = orders_of(payload);
        let distances = self.distances.accept(&kinds, frame.updates.len(), &orders);
        Frame {
            timings: frame
                .updates
                .iter()
                .map(|update| [update.timing.start_sample, update.timing.ramp_duration])
                .collect(),
            start: rows(&frame.kinds, &frame.starting_objects, &distances.start),
            blocks: block_rows(frame, &distances),
            kinds,
            orders,
        }
    }

    /// The Rust has no doubt, so a gap is nothing to it.
    pub fn call(&mut self, call: Call) {
        if call != Call::Gap {
            self.decoder.reset();
            self.distances.forget();
        }
    }

    pub fn retained(&self) -> Vec<Row> {
        rows(
            &self.decoder.kinds,
            &self.decoder.objects,
            &self.distances.held,
        )
    }

    /// Retains rows in form, whatever was decoded before.
    pub fn plant(&mut self, rows: &[Row]) {
        (self.decoder.kinds, self.decoder.objects) = rows.iter().map(kind_and_state).unzip();
        self.distances.plant(rows);
    }
}

fn block_rows(frame: &OamdFrame, distances: &FrameDistances) -> Vec<Row> {
    let by_block = distances.blocks.chunks(frame.kinds.len());
    frame
        .updates
        .iter()
        .zip(by_block)
        .flat_map(|(update, distances)| rows(&frame.kinds, &update.objects, distances))
        .collect()
}

fn refusal(error: &OamdParseError, payload: &[u8]) -> Refusal {
    let (number, text) = match *error {
        OamdParseError::Truncated(text) => (TRUNCATED, text),
        OamdParseError::Invalid(text) => (INVALID, text),
        OamdParseError::Limit(text) => (LIMIT, text),
        OamdParseError::Unsupported(text) => (UNSUPPORTED, text),
    };
    let context = context::number(text);
    let notes = notes_of(payload, error);
    Refusal {
        number,
        context,
        place: place::place(number, context, &notes, payload.len() * 8),
        missing: place::missing(number, &notes),
    }
}

/// x, y, z, width, depth, height and priority as the Rust holds them, and the gain.
pub fn shown_floats(row: &[i16]) -> ([f32; 7], Option<f32>) {
    let (_, state) = kind_and_state(&unmarked(row));
    let ([x, y, z], [width, depth, height]) = (state.position, state.size);
    (
        [x, y, z, width, depth, height, state.priority],
        state.gain_db,
    )
}

/// What an accepted payload orders, object by object, block by block.
fn orders_of(payload: &[u8]) -> Vec<Order> {
    let (notes, error) = noted(payload);
    assert!(error.is_none(), "both copies of the decoder accept alike");
    orders::orders(&notes, payload)
}

/// What a refused payload made the noting decoder read.
fn notes_of(payload: &[u8], error: &OamdParseError) -> Vec<Note> {
    let (notes, noted) = noted(payload);
    let same = noted.is_some_and(|noted| noted == error.to_string());
    assert!(same, "both copies of the decoder refuse alike");
    notes
}

//! Writes the fixed list that the program `replay` runs; docs/notes/replay-list.md has its format.

use oracle::aim::reachable;
use oracle::call::Call;
use oracle::fixed::sequences;
use oracle::journal::Record;
use oracle::listener::{Expected, Listener};
use oracle::tables::{ALL_SETTLED, LOCK_BIT, MARK, NONE_SETTLED, RETAINED_HEAD, ROW_WIDTH};
use std::collections::BTreeSet;
use std::io::{self, Write};

const SEQUENCE: &[u8] = b"S";
const PAYLOAD: &[u8] = b"P";
const END: &[u8] = b"E";

pub fn write(seed: u64, out: &mut impl Write) -> io::Result<()> {
    let mut listener = Listener::default();
    let mut seen = Seen::default();
    for records in sequences(seed) {
        out.write_all(SEQUENCE)?;
        for record in records {
            match record {
                Record::Call(call) => {
                    listener.call(call);
                    out.write_all(mark(call))?;
                }
                Record::Payload(payload) => {
                    let expected = listener.decode(&payload);
                    seen.count(&expected);
                    write_payload(&payload, &expected, &listener.retained(), out)?;
                }
            }
        }
    }
    out.write_all(END)?;
    seen.check()
}

/// What the list must have.
#[derive(Default)]
struct Seen {
    answers: BTreeSet<(u32, u32)>,
    /// Of block rows.
    marks: BTreeSet<i16>,
}

impl Seen {
    fn count(&mut self, expected: &Expected) {
        let said = expected.said;
        self.answers.insert((said.number, said.context));
        let rows = expected.blocks.chunks(ROW_WIDTH);
        self.marks.extend(rows.map(|row| row[MARK]));
    }

    fn check(&self) -> io::Result<()> {
        let mut refusals = reachable();
        refusals.retain(|pair| !self.answers.contains(pair));
        // The lock is read with every other group, so a programme leads to no other marks.
        let mut marks = vec![NONE_SETTLED];
        marks.extend(LOCK_BIT..=ALL_SETTLED);
        marks.retain(|mark| !self.marks.contains(mark));
        if refusals.is_empty() && marks.is_empty() {
            return Ok(());
        }
        Err(io::Error::other(format!(
            "not in the list: refusals {refusals:?}, marks {marks:?}"
        )))
    }
}

fn mark(call: Call) -> &'static [u8] {
    match call {
        Call::Start => b"B",
        Call::Reset => b"R",
        Call::Gap => b"G",
    }
}

fn write_payload(
    payload: &[u8],
    expected: &Expected,
    retained: &[i16],
    out: &mut impl Write,
) -> io::Result<()> {
    let answer = answer(expected, retained);
    out.write_all(PAYLOAD)?;
    out.write_all(&(payload.len() as u16).to_be_bytes())?;
    out.write_all(&(answer.len() as u16).to_be_bytes())?;
    out.write_all(payload)?;
    out.write_all(&answer)
}

/// Every number of a row lies between -128 and 127, so it takes one byte. The block rows stand last.
fn answer(expected: &Expected, retained: &[i16]) -> Vec<u8> {
    let said = expected.said;
    let mut bytes = vec![small(said.number), small(said.context)];
    bytes.extend(said.place.to_be_bytes());
    bytes.extend([said.objects, said.blocks, said.unsettled].map(small));
    bytes.extend(said.missing.to_be_bytes());
    if said.number == 0 {
        let timings = expected.timings.iter();
        bytes.extend(timings.flat_map(|timing| timing.to_be_bytes()));
        let (kept, rest) = retained.split_at(RETAINED_HEAD + expected.start.len());
        assert!(
            rest.iter().all(|&number| number == 0),
            "zeros behind the rows"
        );
        let (head, rows) = kept.split_at(RETAINED_HEAD);
        bytes.extend(head.iter().map(|&number| small(number as u32)));
        bytes.extend(signed(&expected.start));
        bytes.extend(signed(rows));
        bytes.extend(signed(&expected.blocks));
    }
    bytes
}

fn small(number: u32) -> u8 {
    u8::try_from(number).expect("a number of 8 bits")
}

fn signed(numbers: &[i16]) -> impl Iterator<Item = u8> + '_ {
    numbers
        .iter()
        .map(|&number| i8::try_from(number).expect("a signed number of 8 bits") as u8)
}

//! How many fields cover each byte of a payload, by what the noting decoder read.

use crate::answer::{Oracle, LONGEST_PAYLOAD};
use crate::context as c;
use crate::generator::{Generator, Options};
use crate::journal::Record;
use crate::notes::{noted, Note};
use std::io::{self, Write};
use std::ops::Range;

/// What the Rust reads bit by bit, each bit of it noted. It is one field, up to its first 1 or to the end.
const RUNS: [u8; 2] = [c::ELEMENT_PADDING, c::PAYLOAD_PADDING];

/// For each byte, the fields that are read of it. What is skipped or cut is not read.
pub fn covered(payload: &[u8]) -> Vec<u32> {
    let mut counts = vec![0; payload.len()];
    if payload.len() <= LONGEST_PAYLOAD {
        for field in fields(&noted(payload).0) {
            for byte in field.start / 8..field.end.div_ceil(8) {
                counts[byte] += 1;
            }
        }
    }
    counts
}

/// The bits of each field.
fn fields(notes: &[Note]) -> Vec<Range<usize>> {
    let mut fields: Vec<Range<usize>> = Vec::new();
    let mut run = 0;
    for note in notes.iter().filter(|note| note.is_read()) {
        let context = note.context();
        let bits = note.place..note.place + note.width;
        match fields.last_mut() {
            Some(last) if context == run && last.end == bits.start => last.end = bits.end,
            _ => fields.push(bits),
        }
        run = if RUNS.contains(&context) { context } else { 0 };
    }
    fields
}

/// Prints generated payloads, in the format that main.rs describes.
pub fn print(seed: u64, payloads: usize, out: &mut impl Write) -> io::Result<()> {
    let mut oracle = Oracle::default();
    let mut generator = Generator::new(seed, Options::default());
    for record in (0..payloads).flat_map(|_| generator.next_records()) {
        match record {
            Record::Call(call) => oracle.call(call),
            Record::Payload(payload) => {
                let number = oracle.decode(&payload).err().map_or(0, |no| no.number);
                write!(out, "{number} ")?;
                for byte in &payload {
                    write!(out, "{byte:02x}")?;
                }
                for count in covered(&payload) {
                    write!(out, " {count}")?;
                }
                writeln!(out)?;
            }
        }
    }
    Ok(())
}

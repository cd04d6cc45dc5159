//! Journals: records, each behind its mark, and what the oracle says to each.

use crate::answer::{Frame, Oracle, Row};
use crate::call::Call;
use std::fmt::Display;
use std::io::{self, Write};

#[derive(Clone, Debug, PartialEq, Eq)]
pub enum Record {
    Payload(Vec<u8>),
    Call(Call),
}

/// How a journal ends, with the offset of what could not be read.
#[derive(Clone, Copy, Debug, PartialEq, Eq)]
pub enum Ending {
    End,
    Torn(usize),
    Mark(usize),
}

enum Step {
    Found(Record, usize),
    Stopped(Ending),
}

/// The records of a journal, and its ending.
pub fn records(journal: &[u8]) -> (Vec<Record>, Ending) {
    let mut found = Vec::new();
    let mut offset = 0;
    loop {
        match step(journal, offset) {
            Step::Found(record, next) => {
                found.push(record);
                offset = next;
            }
            Step::Stopped(ending) => return (found, ending),
        }
    }
}

fn step(journal: &[u8], offset: usize) -> Step {
    match &journal[offset..] {
        [] => Step::Stopped(Ending::End),
        [b'P', b'S', ..] => Step::Found(Record::Call(Call::Start), offset + 2),
        [b'R', b'S', ..] => Step::Found(Record::Call(Call::Reset), offset + 2),
        [b'G', b'P', ..] => Step::Found(Record::Call(Call::Gap), offset + 2),
        [b'P', b'L', high, low, rest @ ..] => {
            let length = usize::from(*high) * 256 + usize::from(*low);
            match rest.get(..length) {
                Some(payload) => {
                    Step::Found(Record::Payload(payload.to_vec()), offset + 4 + length)
                }
                None => Step::Stopped(Ending::Torn(offset)),
            }
        }
        [b'P', b'L', ..] | [_] => Step::Stopped(Ending::Torn(offset)),
        _ => Step::Stopped(Ending::Mark(offset)),
    }
}

impl Record {
    pub fn write(&self, out: &mut impl Write) -> io::Result<()> {
        match self {
            Record::Call(Call::Start) => out.write_all(b"PS"),
            Record::Call(Call::Reset) => out.write_all(b"RS"),
            Record::Call(Call::Gap) => out.write_all(b"GP"),
            Record::Payload(payload) => {
                let length = u16::try_from(payload.len()).expect("a record's length has 16 bits");
                out.write_all(b"PL")?;
                out.write_all(&length.to_be_bytes())?;
                out.write_all(payload)
            }
        }
    }
}

/// Prints the answers to a journal, in the format that main.rs describes.
pub fn print_answers(journal: &[u8], out: &mut impl Write) -> io::Result<()> {
    let (records, ending) = records(journal);
    let mut oracle = Oracle::default();
    for record in &records {
        match record {
            Record::Payload(payload) => print_answer(&mut oracle, payload, out)?,
            Record::Call(call) => {
                oracle.call(*call);
                writeln!(out, "{}", word(*call))?;
            }
        }
    }
    match ending {
        Ending::End => writeln!(out, "end {}", records.len()),
        Ending::Torn(offset) => writeln!(out, "torn {offset}"),
        Ending::Mark(offset) => writeln!(out, "mark {offset}"),
    }
}

fn word(call: Call) -> &'static str {
    match call {
        Call::Start => "start",
        Call::Reset => "reset",
        Call::Gap => "gap",
    }
}

fn print_answer(oracle: &mut Oracle, payload: &[u8], out: &mut impl Write) -> io::Result<()> {
    let before = oracle.retained();
    match oracle.decode(payload) {
        Ok(frame) => print_frame(&frame, &oracle.retained(), out),
        Err(refusal) => {
            assert_eq!(
                before,
                oracle.retained(),
                "a refusal keeps what is retained"
            );
            writeln!(
                out,
                "no {} {} {} {}",
                refusal.number, refusal.context, refusal.place, refusal.missing
            )
        }
    }
}

fn print_frame(frame: &Frame, retained: &[Row], out: &mut impl Write) -> io::Result<()> {
    writeln!(out, "ok {} {}", frame.kinds.len(), frame.timings.len())?;
    print_line("kinds", &frame.kinds, out)?;
    print_line("timings", frame.timings.as_flattened(), out)?;
    for (name, rows) in [
        ("start_row", &frame.start[..]),
        ("block_row", &frame.blocks),
        ("retained_row", retained),
    ] {
        for row in rows {
            print_line(name, row, out)?;
        }
    }
    Ok(())
}

fn print_line(name: &str, numbers: &[impl Display], out: &mut impl Write) -> io::Result<()> {
    write!(out, "{name}")?;
    for number in numbers {
        write!(out, " {number}")?;
    }
    writeln!(out)
}

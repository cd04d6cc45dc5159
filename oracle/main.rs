//! The oracle's program. Its modes:
//!
//! `journal`: answers the journal on standard input, record by record, in lines:
//!     no NUMBER CONTEXT PLACE MISSING
//!                               a payload refused; the decoder keeps what it had
//!     ok OBJECTS BLOCKS         a payload accepted, and then
//!     kinds KIND ..             0 Lfe, 1 Bed, 2 Isf, 3 Dynamic
//!     timings START RAMP ..     of each block
//!     start_row NUMBER ..       a line for each start row
//!     block_row NUMBER ..       a line for each row of block 0, then of block 1, and on
//!     retained_row NUMBER ..    a line for each row that is kept
//!     start                     a programme start: the decoder begins anew
//!     reset                     the same, since the Rust has no doubt
//!     gap                       nothing is done, for the same reason
//! and last `end RECORDS`, `torn OFFSET` or `mark OFFSET`. A row is the specification's row without
//! its mark. A payload over 16,384 bytes is not decoded: `no 7 0 0 0`.
//!
//! `timing`: answers each line BLOCKS START RAMP .. SAMPLE of standard input by
//!     NUMBER FROM TO BITS       the timing test's number (0, 8, 9, 10), the rows chosen (0 the
//!                               start row, b + 1 block b) and the f32 fraction, by its bits
//!
//! `generate SEED COUNT [warnings] [short]`: writes a journal with COUNT payloads in sequences, a
//!     programme start before each; warnings: with gap notices and resets; short: at most 40 objects,
//!     and no very long payload.
//!
//! `list SEED`: writes the fixed list that the program `replay` runs; it fails if a reachable pair of
//!     number and context is not in it, or a mark that payloads lead to. docs/notes/replay-list.md has
//!     its format.
//!
//! `covered SEED COUNT`: writes COUNT payloads, each in a line: the answer's number (0 accepted), the
//!     payload's bytes in hexadecimal, and how many fields cover each of them.
//!
//! `count SEED COUNT`: counts the answers to such a journal by number and context. It fails if an
//!     aim misses, if a reachable pair is not seen, or if another one is.

use oracle::generator::{Generator, Options};
use oracle::{covered, journal, timing};
use std::io::{self, BufWriter, Read, Write};
use std::process::ExitCode;

mod count;
mod fixed_list;

const USAGE: &str = "usage: oracle journal | timing | generate SEED COUNT [warnings] [short] | \
    list SEED | covered SEED COUNT | count SEED COUNT";

fn main() -> ExitCode {
    let arguments: Vec<String> = std::env::args().skip(1).collect();
    let words: Vec<&str> = arguments.iter().map(String::as_str).collect();
    let mut out = BufWriter::new(io::stdout().lock());
    let done = match words[..] {
        ["journal"] => answer_journal(&mut out),
        ["timing"] => answer_timings(&mut out),
        ["generate", seed, count, ref options @ ..] => generate(seed, count, options, &mut out),
        ["list", seed] => fixed_list::write(number(seed), &mut out),
        ["covered", seed, count] => covered::print(number(seed), number(count) as usize, &mut out),
        ["count", seed, count] => count::count(number(seed), number(count) as usize, &mut out),
        _ => Err(io::Error::other(USAGE)),
    };
    match done.and_then(|()| out.flush()) {
        Ok(()) => ExitCode::SUCCESS,
        Err(error) => {
            eprintln!("oracle: {error}");
            ExitCode::from(2)
        }
    }
}

fn answer_journal(out: &mut impl Write) -> io::Result<()> {
    let mut bytes = Vec::new();
    io::stdin().lock().read_to_end(&mut bytes)?;
    journal::print_answers(&bytes, out)
}

fn answer_timings(out: &mut impl Write) -> io::Result<()> {
    for line in io::stdin().lines() {
        let line = line?;
        let numbers: Vec<usize> = line
            .split_whitespace()
            .map(|word| number(word) as usize)
            .collect();
        let (blocks, rest) = numbers
            .split_first()
            .expect("a line begins with its count of blocks");
        let (sample, pairs) = rest.split_last().expect("a line ends with a sample");
        assert_eq!(pairs.len(), blocks * 2, "a start and a ramp for each block");
        let small = |value: usize| u16::try_from(value).expect("a timing has 16 bits");
        let timings: Vec<[u16; 2]> = pairs
            .chunks(2)
            .map(|pair| [small(pair[0]), small(pair[1])])
            .collect();
        let choice = timing::ramp_choice(&timings, *sample);
        let verdict = timing::timing_number(&timings);
        writeln!(
            out,
            "{verdict} {} {} {}",
            choice.from, choice.to, choice.fraction
        )?;
    }
    Ok(())
}

fn generate(seed: &str, count: &str, options: &[&str], out: &mut impl Write) -> io::Result<()> {
    if options
        .iter()
        .any(|option| !["warnings", "short"].contains(option))
    {
        return Err(io::Error::other(USAGE));
    }
    let options = Options {
        warnings: options.contains(&"warnings"),
        short: options.contains(&"short"),
    };
    let mut generator = Generator::new(number(seed), options);
    for _ in 0..number(count) {
        for record in generator.next_records() {
            record.write(out)?;
        }
    }
    Ok(())
}

fn number(word: &str) -> u64 {
    word.parse()
        .unwrap_or_else(|_| panic!("not a whole number: {word}"))
}

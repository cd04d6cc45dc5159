//! Decodes payloads while tools/loads traces it. Nothing but the decoder loads a byte of them.
//!
//! `loads PAYLOADS LENGTHS`: PAYLOADS has their bytes, LENGTHS a line for each: the offset of its first
//! byte and its length. It prints the address of the first byte of all, and then, payload by payload, the
//! number that decode gave.

use std::fs::{self, File};
use std::io::{self, Read, Write};

#[allow(dead_code)]
#[path = "../compare/proved.rs"]
mod proved;

use proved::Tables;

fn main() -> io::Result<()> {
    let words: Vec<String> = std::env::args().skip(1).collect();
    let [payloads, lengths] = &words[..] else {
        return Err(io::Error::other("usage: loads PAYLOADS LENGTHS"));
    };
    let bytes = read_by_the_kernel(payloads)?;
    let lengths = fs::read_to_string(lengths)?;
    let mut out = io::stdout().lock();
    writeln!(out, "{:p}", bytes.as_ptr())?;
    out.flush()?;
    let mut tables = Tables::new();
    for line in lengths.lines() {
        let numbers = line.split(' ').map(str::parse);
        let numbers: Vec<usize> = numbers
            .collect::<Result<_, _>>()
            .map_err(io::Error::other)?;
        let payload = &bytes[numbers[0]..numbers[0] + numbers[1]];
        writeln!(out, "{}", tables.decode(payload).number)?;
    }
    Ok(())
}

/// A file, in a buffer that is never moved: that would load its bytes.
fn read_by_the_kernel(path: &str) -> io::Result<Vec<u8>> {
    let mut file = File::open(path)?;
    let mut bytes = vec![0; file.metadata()?.len() as usize];
    file.read_exact(&mut bytes)?;
    Ok(bytes)
}

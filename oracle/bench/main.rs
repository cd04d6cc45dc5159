//! Times the Rust and the proved decoder on the same payloads. tools/bench builds and runs it.
//!
//! `bench ROUNDS`: each case is timed ROUNDS times, the two decoders in turn, and the best round of
//! each counts. It prints nanoseconds for a payload and the ratio, and fails where typical, heavy or
//! steady payloads take the proved decoder longer.
//!
//! Built with `--cfg containers` it also times the call on containers, beside a plain copy.

use oracle::oamd::OamdDecoder;
use std::hint::black_box;
use std::process::ExitCode;
use std::time::{Duration, Instant};

mod cases;
#[cfg(containers)]
mod containers;
#[allow(dead_code)]
#[path = "../compare/proved.rs"]
mod proved;
#[cfg(containers)]
#[path = "../compare/proved_container.rs"]
mod proved_container;

use cases::Case;
use proved::Tables;

/// A round takes about so long, so that a clock's step is nothing.
const ROUND: Duration = Duration::from_millis(60);

fn main() -> ExitCode {
    let words: Vec<String> = std::env::args().skip(1).collect();
    let Some(Ok(rounds)) = words.first().map(|word| word.parse::<u32>()) else {
        eprintln!("usage: bench ROUNDS");
        return ExitCode::from(2);
    };
    println!("case | payloads | bytes | Rust ns | proved ns | Rust / proved");
    println!("---|---|---|---|---|---");
    let mut slower = false;
    for case in cases::all() {
        let ratio = timed(&case, rounds);
        slower |= case.must_hold && ratio < 1.0;
    }
    #[cfg(containers)]
    containers::print(rounds);
    if slower {
        println!("failed: the proved decoder is slower than the Rust");
    }
    ExitCode::from(u8::from(slower))
}

/// Prints a line. Answers how often the proved decoder's time goes into the Rust's.
fn timed(case: &Case, rounds: u32) -> f64 {
    let mut rust = OamdDecoder::default();
    let mut tables = Tables::new();
    let turns = turns_for(case, &mut rust);
    let mut best = [Duration::MAX; 2];
    for _ in 0..rounds {
        best[0] = best[0].min(clock(turns, || decode_all(case, &mut rust)));
        best[1] = best[1].min(clock(turns, || prove_all(case, &mut tables)));
    }
    let calls = f64::from(turns) * case.payloads.len() as f64;
    let [rust, proved] = best.map(|time| time.as_nanos() as f64 / calls);
    let bytes: usize = case.payloads.iter().map(Vec::len).sum();
    println!(
        "{} | {} | {} | {rust:.0} | {proved:.0} | {:.2}",
        case.name,
        case.payloads.len(),
        bytes / case.payloads.len(),
        rust / proved
    );
    rust / proved
}

fn turns_for(case: &Case, rust: &mut OamdDecoder) -> u32 {
    let once = clock(1, || decode_all(case, rust));
    (ROUND.as_nanos() / once.as_nanos().max(1)).max(1) as u32
}

fn clock(turns: u32, mut work: impl FnMut()) -> Duration {
    let begin = Instant::now();
    for _ in 0..turns {
        work();
    }
    begin.elapsed()
}

fn decode_all(case: &Case, decoder: &mut OamdDecoder) {
    for payload in &case.payloads {
        let _ = black_box(decoder.decode(black_box(payload)));
    }
}

fn prove_all(case: &Case, tables: &mut Tables) {
    for payload in &case.payloads {
        black_box(tables.decode(black_box(payload)));
    }
}

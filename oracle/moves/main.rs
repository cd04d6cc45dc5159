//! Compares the calls on moves over the frame edge with a simulation. tools/moves builds and runs it.
//!
//! `moves N SEED`: N programmes, each played by a small rack beside a simulation in absolute time, and
//!     ten times as many drawn calls, each beside a model of it. It prints what was seen, and fails on a
//!     difference, or if too little was seen.
//! `moves --falsify`: shows that wrong calls are found.

use difference::Difference;
use std::process::ExitCode;

mod calls;
mod calls_seen;
#[allow(dead_code)]
#[path = "../compare/difference.rs"]
mod difference;
mod drawn;
mod drawn_calls;
mod falsify;
mod lent;
mod model;
mod notes;
mod programmes;
#[allow(dead_code)]
#[path = "../compare/proved.rs"]
mod proved;
mod questions;
mod rack;
mod seen;
mod stage;
mod timeline;
#[allow(dead_code)]
#[path = "../compare/view_cases.rs"]
mod view_cases;
mod wrong;
mod wrong_carry;
mod wrong_hold;
mod wrong_lent;
mod wrong_ramp;
mod wrong_timing;

use calls::PROVED;
use drawn_calls::DrawnCalls;
use programmes::Programmes;

const PROGRESS: u64 = 100_000;
const REPORTS: usize = 10;
/// Drawn calls for each programme.
const CALLS: u64 = 10;
/// So many programmes meet every event.
const ENOUGH: u64 = 2_000;

fn main() -> ExitCode {
    let words: Vec<String> = std::env::args().skip(1).collect();
    let good = match &words[..] {
        [word] if word == "--falsify" => falsify::falsify(1),
        [programmes, seed] => match (programmes.parse(), seed.parse()) {
            (Ok(programmes), Ok(seed)) => compare(programmes, seed),
            _ => return usage(),
        },
        _ => return usage(),
    };
    ExitCode::from(u8::from(!good))
}

fn usage() -> ExitCode {
    eprintln!("usage: moves N SEED | moves --falsify");
    ExitCode::from(2)
}

fn compare(count: u64, seed: u64) -> bool {
    let mut programmes = Programmes::new(seed, PROVED);
    let mut complaints = differences("programme", count, || programmes.programme());
    programmes.seen.print();
    let mut calls = DrawnCalls::new(seed, PROVED);
    complaints.extend(differences("call", count.saturating_mul(CALLS), || {
        calls.case()
    }));
    calls.seen.print();
    println!("differences {}", complaints.len());
    if count >= ENOUGH {
        let unseen = programmes.seen.unseen().into_iter();
        let unseen = unseen.chain(calls.seen.unseen());
        complaints.extend(unseen.map(|name| format!("never seen: {name}")));
    }
    for complaint in &complaints {
        println!("failed: {complaint}");
    }
    complaints.is_empty()
}

/// The differences of so many turns, as far as they are reported.
fn differences(
    what: &str,
    count: u64,
    mut next: impl FnMut() -> Result<(), Difference>,
) -> Vec<String> {
    let mut found = Vec::new();
    for turn in 1..=count {
        if let Err(difference) = next() {
            found.push(format!("{what} {turn}: {difference}"));
        }
        if found.len() == REPORTS {
            break;
        }
        if turn % PROGRESS == 0 {
            eprintln!("{what} {turn}");
        }
    }
    found
}

//! Compares the proved decoder with the Rust, call by call. tools/compare builds and runs it.
//!
//! `compare N SEED`: N payloads at least, in sequences that the seed decides. It prints what was
//!     seen and fails on a difference, or if too little was seen.
//! `compare --falsify`: shows that wrong expectations are found.
//!
//! Built with `--cfg views` it also compares the calls timing, ramp, row and shown, on drawn tables, and
//! built with `--cfg containers` the call on containers, on some that are cut at every byte and on drawn ones.

use oracle::listener::Listener;
use std::process::ExitCode;

mod appended;
mod bench;
#[cfg(containers)]
mod container_seen;
#[cfg(containers)]
mod containers;
mod difference;
mod events;
mod falsify;
mod heard_all;
mod lent;
mod mark_rule;
mod proved;
#[cfg(containers)]
mod proved_container;
mod run;
mod seen;
mod spoil;
mod tally;
#[cfg(views)]
mod view_cases;
#[cfg(views)]
mod views;
mod wrong;

use run::Run;

const PROGRESS: u64 = 250_000;
const REPORTS: u64 = 10;

fn main() -> ExitCode {
    let words: Vec<String> = std::env::args().skip(1).collect();
    let good = match &words[..] {
        [word] if word == "--falsify" => falsify::falsify(1),
        [payloads, seed] => match (payloads.parse(), seed.parse()) {
            (Ok(payloads), Ok(seed)) => compare(payloads, seed),
            _ => return usage(),
        },
        _ => return usage(),
    };
    ExitCode::from(u8::from(!good))
}

fn usage() -> ExitCode {
    eprintln!("usage: compare N SEED | compare --falsify");
    ExitCode::from(2)
}

fn compare(payloads: u64, seed: u64) -> bool {
    let mut run = Run::new(seed, Listener::default());
    let mut next = PROGRESS;
    while run.tally.payloads < payloads && run.tally.differences < REPORTS {
        if let Err((difference, payload)) = run.sequence() {
            println!("after {} payloads: {difference}", run.tally.payloads);
            println!("  payload {}", hexadecimal(&payload));
        }
        if run.tally.payloads >= next {
            eprintln!("{} payloads", run.tally.payloads);
            next += PROGRESS;
        }
    }
    run.tally.print();
    #[allow(unused_mut)]
    let mut complaints = run.tally.complaints();
    #[cfg(views)]
    complaints.extend(compare_views(payloads, seed));
    #[cfg(containers)]
    complaints.extend(compare_containers(payloads, seed));
    for complaint in &complaints {
        println!("failed: {complaint}");
    }
    complaints.is_empty()
}

/// As many cases as payloads. Answers what is to be complained of.
#[cfg(views)]
fn compare_views(cases: u64, seed: u64) -> Option<String> {
    let mut views = views::Views::new(seed);
    let done = (0..cases).try_for_each(|_| views.case());
    for ((call, number), times) in &views.seen {
        println!("{call} {number}: {times}");
    }
    done.err().map(|difference| difference.to_string())
}

/// The cut ones, and as many drawn ones as payloads. Answers what is to be complained of.
#[cfg(containers)]
fn compare_containers(cases: u64, seed: u64) -> Vec<String> {
    let mut containers = containers::Containers::new(seed);
    let done = containers.cuts().and_then(|cut| {
        println!("containers cut at every byte {cut}");
        (0..cases).try_for_each(|_| containers.case())
    });
    containers.seen.print();
    let mut complaints = containers.seen.complaints();
    if let Err((difference, container)) = done {
        println!("  container {}", hexadecimal(&container));
        complaints.push(difference.to_string());
    }
    complaints
}

fn hexadecimal(bytes: &[u8]) -> String {
    bytes.iter().map(|byte| format!("{byte:02x}")).collect()
}

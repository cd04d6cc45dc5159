//! Times the proved call on containers beside a plain copy of as many bytes.

use crate::clock;
use crate::proved_container::emdf;
use oracle::answer::LONGEST_PAYLOAD;
use oracle::container::{Config, OBJECTS};
use oracle::container_writer::Writer;
use oracle::random::Random;
use std::hint::black_box;
use std::time::Duration;

/// Calls in one round: of containers with the longest payload, and of small ones.
const LONG_TURNS: u32 = 2_000;
const SMALL_TURNS: u32 = 200_000;

const SMALL_PAYLOAD: usize = 60;
const SMALL_OTHERS: [(u128, usize); 2] = [(1, 12), (14, 20)];

struct Case {
    name: &'static str,
    container: Vec<u8>,
    turns: u32,
}

/// Prints a line for each case. None of them can fail.
pub fn print(rounds: u32) {
    println!();
    println!("container | bytes | copied | copy ns | GB/s | proved ns | GB/s");
    println!("---|---|---|---|---|---|---");
    for case in all() {
        timed(&case, rounds);
    }
}

fn all() -> [Case; 3] {
    let case = |name, container, turns| Case {
        name,
        container,
        turns,
    };
    [
        case("longest, on a byte", longest(0), LONG_TURNS),
        case("longest, 4 bits behind one", longest(4), LONG_TURNS),
        case("small, behind two others", small(), SMALL_TURNS),
    ]
}

/// One object payload of the most bytes, so many bits behind a byte.
fn longest(bits: usize) -> Vec<u8> {
    let random = &mut Random::new(1);
    let mut writer = (1..=8)
        .map(|groups| begun(random, groups))
        .find(|writer| writer.length % 8 == bits)
        .expect("a group has three bits");
    writer.any_bytes(random, LONGEST_PAYLOAD);
    writer.into_bytes()
}

/// Up to its bytes. The more groups its group number has, the later they begin.
fn begun(random: &mut Random, groups: usize) -> Writer {
    let config = Config {
        group: true,
        ..Config::BARE
    };
    let mut writer = Writer::plain();
    writer.id(OBJECTS);
    writer.config(random, &config, [1, groups]);
    writer.variable(LONGEST_PAYLOAD as u128, 8);
    writer
}

fn small() -> Vec<u8> {
    let random = &mut Random::new(1);
    let config = Config {
        sample_offset: true,
        discard: false,
        ..Config::BARE
    };
    let mut writer = Writer::plain();
    let object = (OBJECTS, SMALL_PAYLOAD);
    for (id, size) in SMALL_OTHERS.into_iter().chain([object]) {
        writer.id(id);
        writer.config(random, &config, [1, 1]);
        writer.variable(size as u128, 8);
        writer.any_bytes(random, size);
    }
    writer.into_bytes()
}

fn timed(case: &Case, rounds: u32) {
    let mut buffer = vec![0; LONGEST_PAYLOAD];
    let (number, length) = emdf(&case.container, &mut buffer);
    if number != 0 {
        println!("{} | refused by {number}", case.name);
        return;
    }
    let payload = buffer[..length as usize].to_vec();
    let mut best = [Duration::MAX; 2];
    for _ in 0..rounds {
        best[0] = best[0].min(clock(case.turns, || copy(&payload, &mut buffer)));
        best[1] = best[1].min(clock(case.turns, || {
            black_box(emdf(black_box(&case.container), &mut buffer));
        }));
    }
    let [copied, proved] = best.map(|time| time.as_nanos() as f64 / f64::from(case.turns));
    let rate = |nanoseconds: f64| f64::from(length) / nanoseconds;
    println!(
        "{} | {} | {length} | {copied:.0} | {:.2} | {proved:.0} | {:.2}",
        case.name,
        case.container.len(),
        rate(copied),
        rate(proved)
    );
}

fn copy(payload: &[u8], buffer: &mut [u8]) {
    black_box(&mut buffer[..payload.len()]).copy_from_slice(black_box(payload));
}

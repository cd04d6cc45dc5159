//! What made programmes say: kinds and rows of objects, and the starts and ramps of blocks.

use crate::timeline::Picture;
use oracle::form::random_row;
use oracle::random::Random;
use oracle::tables::{DYNAMIC, FRAME_LENGTH as FRAME, MOST_OBJECTS};

/// The longest ramp that a lent table can say, and the longest of a payload.
pub const LONGEST: u32 = 65_535;
const LONGEST_OF_PAYLOADS: u32 = 2_048;

/// Mostly of few objects.
pub fn kinds(random: &mut Random) -> Vec<i16> {
    let count = match random.below(64) {
        0..=3 => 0,
        4..=53 => random.between(1, 4),
        54..=60 => random.between(5, 16),
        61 | 62 => random.between(17, MOST_OBJECTS as u32),
        _ => MOST_OBJECTS as u32,
    };
    (0..count).map(|_| kind(random)).collect()
}

fn kind(random: &mut Random) -> i16 {
    let any = random.below(4) as i16;
    random.pick(&[DYNAMIC, any])
}

/// Another kind in one place, one object more or less, or all anew.
pub fn changed(random: &mut Random, kinds: &[i16]) -> Vec<i16> {
    let mut changed = kinds.to_vec();
    match random.below(5) {
        0 if changed.len() < MOST_OBJECTS => changed.push(kind(random)),
        1 if !changed.is_empty() => drop(changed.pop()),
        2 | 3 if !changed.is_empty() => {
            let at = random.index(changed.len());
            changed[at] = (changed[at] + random.between(1, 3) as i16) % 4;
        }
        _ => return self::kinds(random),
    }
    changed
}

/// Rows that may be retained.
pub fn picture(random: &mut Random, kinds: &[i16]) -> Picture {
    let rows = kinds.iter().flat_map(|&kind| random_row(random, kind));
    rows.collect()
}

/// Starts and ramps of a frame's blocks, behind a move that ends so far in it.
pub fn timings(random: &mut Random, rule: u32, end: u32) -> Vec<[u16; 2]> {
    let blocks = random.pick(&[1, 1, 1, 1, 1, 2, 2, 3, 4, 8]);
    let mut end = end;
    let mut timings = Vec::new();
    for block in 1..=blocks {
        let start = start(random, end);
        let over = block == blocks && (rule == 2 || random.once_in(8));
        let ramp = if over || random.once_in(20) {
            far_ramp(random, start)
        } else {
            near_ramp(random, start)
        };
        end = start + ramp;
        timings.push([start as u16, ramp as u16]);
    }
    timings
}

/// Mostly not before the end of what is under way.
fn start(random: &mut Random, end: u32) -> u32 {
    match random.below(64) {
        0..=2 => end.saturating_sub(1).min(LONGEST),
        3 => FRAME + 1,
        4 => random.below(FRAME),
        5 => random.between(0, LONGEST),
        6..=11 => (end + 1).min(LONGEST),
        12..=17 => FRAME,
        18..=39 => random.between(end.min(FRAME), FRAME),
        _ => end.min(LONGEST),
    }
}

/// One that mostly ends in its frame, and leaves room for another block.
fn near_ramp(random: &mut Random, start: u32) -> u32 {
    let left = FRAME.saturating_sub(start);
    let half = random.between(0, left / 2);
    random.pick(&[0, 1, half, half, half, left])
}

/// One that mostly ends behind its frame, often at an edge or beside it.
fn far_ramp(random: &mut Random, start: u32) -> u32 {
    let edges = match random.below(10) {
        0..=3 => 0,
        4..=8 => random.between(1, 4),
        _ => random.between(5, LONGEST / FRAME),
    };
    let edge = FRAME.saturating_sub(start) + edges * FRAME;
    let ramp = match random.below(32) {
        0 => 0,
        1 | 2 => random.between(1, 3),
        3 | 4 => random.between(1, 200),
        5..=16 => edge.max(1) - 1 + random.below(3),
        17..=24 => random.between(1, 5 * FRAME),
        25 => LONGEST_OF_PAYLOADS,
        26..=28 => LONGEST - random.below(200),
        29 => LONGEST,
        _ => random.between(1, LONGEST),
    };
    ramp.min(LONGEST)
}

//! Timings, samples and rows for the calls on finished tables.

use oracle::form::{other_number, random_shown_row};
use oracle::random::Random;
use oracle::tables::FRAME_LENGTH as FRAME;

/// Up to 9 blocks. Half of them pass the timing test or nearly so; the others are any numbers of 16 bits.
pub fn drawn_timings(random: &mut Random) -> Vec<u16> {
    let blocks = random.below(10) as usize;
    if random.flag() {
        return nearly_right(random, blocks);
    }
    let largest = random.pick(&[FRAME + 1, 2047, 65_535]);
    let mut number = || {
        let any = random.between(0, largest);
        random.pick(&[0, 1, largest, any]) as u16
    };
    (0..blocks * 2).map(|_| number()).collect()
}

fn nearly_right(random: &mut Random, blocks: usize) -> Vec<u16> {
    let mut starts: Vec<u32> = (0..blocks).map(|_| random.between(0, FRAME)).collect();
    starts.sort_unstable();
    starts.push(FRAME);
    let mut timings = Vec::new();
    for pair in starts.windows(2) {
        let ramp = (pair[1] - pair[0] + random.pick(&[0, 0, 1, 2])).saturating_sub(1);
        timings.extend([pair[0] as u16, ramp as u16]);
    }
    timings
}

/// Mostly as many blocks as there are timings; else fewer, more than are lent, or more than 8.
pub fn drawn_blocks(random: &mut Random, numbers: usize) -> u32 {
    let whole = numbers as u32 / 2;
    if random.once_in(16) {
        return random.pick(&[9, 10, u32::MAX]);
    }
    let fewer = random.below(whole + 1);
    random.pick(&[whole, whole, whole, whole, fewer, whole + 1])
}

/// A sample at the edge of a ramp, or any; a few are past the last.
pub fn drawn_sample(random: &mut Random, timings: &[u16]) -> u32 {
    let any = random.below(FRAME);
    if timings.is_empty() || random.once_in(4) {
        return random.pick(&[any, any, any, any, any, 0, FRAME - 1, FRAME, u32::MAX]);
    }
    let block = random.index(timings.len() / 2) * 2;
    let start = u32::from(timings[block]);
    let edge = random.pick(&[start, start + u32::from(timings[block + 1])]);
    let sample = edge.saturating_sub(random.below(2));
    if sample < FRAME || random.once_in(8) {
        sample
    } else {
        any
    }
}

/// A row that can be shown, or one with another number in one place.
pub fn drawn_row(random: &mut Random) -> Vec<i16> {
    let kind = random.below(4) as i16;
    let mut row = random_shown_row(random, kind).to_vec();
    if random.flag() {
        let at = random.index(row.len());
        row[at] = other_number(random);
    }
    row
}

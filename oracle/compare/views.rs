//! The calls on finished tables: timing, ramp, row and shown, each against the Rust's rules.

use crate::difference::{number, Difference};
use crate::view_cases::{drawn_blocks, drawn_row, drawn_sample, drawn_timings};
use oracle::answer::shown_floats;
use oracle::form::can_be_shown;
use oracle::random::Random;
use oracle::tables::{FRAME_LENGTH, MOST_BLOCKS, ROW_WIDTH};
use oracle::timing::{elapsed_and_duration, ramp_choice, timing_number};
use std::collections::BTreeMap;

extern "C" {
    fn oamd_timing(timings: *const u16, timings_len: usize, blocks: u32) -> u32;
    fn oamd_ramp(
        timings: *const u16,
        timings_len: usize,
        blocks: u32,
        sample: u32,
        answer: *mut u32,
        fraction: *mut f32,
    ) -> u32;
    fn oamd_row(table: *const i16, table_len: usize, index: u32) -> u32;
    fn oamd_shown(
        table: *const i16,
        table_len: usize,
        index: u32,
        values: *mut f32,
        silent: *mut u32,
    ) -> u32;
}

const ROOM: u32 = 5;
const FORM: u32 = 6;
const QUERY: u32 = 11;
const INDEX: u32 = 12;

const TIMING: &str = "timing number";
const RAMP: [&str; 6] = [
    "ramp number",
    "ramp from",
    "ramp to",
    "ramp elapsed",
    "ramp duration",
    "ramp fraction",
];
/// Counted, and not compared: a ramp between two rows.
const MOVING: &str = "ramp between rows, number";
const ROW: &str = "row number";
const SHOWN: [&str; 10] = [
    "shown number",
    "shown silent",
    "shown x",
    "shown y",
    "shown z",
    "shown width",
    "shown depth",
    "shown height",
    "shown priority",
    "shown decibels",
];

pub struct Views {
    random: Random,
    /// How often each call gave each number.
    pub seen: BTreeMap<(&'static str, u32), u64>,
    /// The part that is expected wrongly.
    pub spoil: Option<&'static str>,
}

impl Views {
    pub fn new(seed: u64) -> Self {
        Views {
            random: Random::new(seed),
            seen: BTreeMap::new(),
            spoil: None,
        }
    }

    pub fn parts() -> Vec<&'static str> {
        let mut parts = vec![TIMING, ROW];
        parts.extend(RAMP);
        parts.extend(SHOWN);
        parts
    }

    /// One call of each, on tables and numbers that are drawn.
    pub fn case(&mut self) -> Result<(), Difference> {
        let timings = drawn_timings(&mut self.random);
        let blocks = drawn_blocks(&mut self.random, timings.len());
        let sample = drawn_sample(&mut self.random, &timings);
        self.timing(&timings, blocks)?;
        self.ramp(&timings, blocks, sample)?;
        let mut table: Vec<i16> = drawn_row(&mut self.random);
        table.extend(drawn_row(&mut self.random));
        let length = table.len() - self.random.pick(&[0, 0, 0, 0, 1, 2]);
        let index = self.random.pick(&[0, 0, 0, 1, 1, 1, 2, u32::MAX]);
        self.row(&table[..length], index)
    }

    fn timing(&mut self, timings: &[u16], blocks: u32) -> Result<(), Difference> {
        let expected = match used(timings, blocks) {
            Ok(used) => u32::from(timing_number(used)),
            Err(refusal) => refusal,
        };
        let found = unsafe { oamd_timing(timings.as_ptr(), timings.len(), blocks) };
        *self.seen.entry((TIMING, expected)).or_default() += 1;
        self.check(TIMING, expected, found)
    }

    fn ramp(&mut self, timings: &[u16], blocks: u32, sample: u32) -> Result<(), Difference> {
        let mut expected = [0; 6];
        match used(timings, blocks) {
            _ if sample >= FRAME_LENGTH => expected[0] = QUERY,
            Err(refusal) => expected[0] = refusal,
            Ok(used) => {
                let choice = ramp_choice(used, sample as usize);
                let rows = [choice.from, choice.to].map(|row| row as u32);
                expected[1..3].copy_from_slice(&rows);
                expected[3..5].copy_from_slice(&elapsed_and_duration(used, sample));
                expected[5] = choice.fraction;
            }
        }
        let mut answer = [u32::MAX; 4];
        let mut fraction = f32::NAN;
        let (table, length) = (timings.as_ptr(), timings.len());
        let (out, part) = (answer.as_mut_ptr(), &mut fraction);
        let number = unsafe { oamd_ramp(table, length, blocks, sample, out, part) };
        *self.seen.entry((RAMP[0], expected[0])).or_default() += 1;
        *self.seen.entry((MOVING, 0)).or_default() += u64::from(expected[1] != expected[2]);
        let [from, to, elapsed, duration] = answer;
        let found = [number, from, to, elapsed, duration, fraction.to_bits()];
        self.check_all(&RAMP, &expected, &found)
    }

    fn row(&mut self, table: &[i16], index: u32) -> Result<(), Difference> {
        let row = table.chunks_exact(ROW_WIDTH).nth(index as usize);
        let number = match row {
            None => INDEX,
            Some(row) if !can_be_shown(row) => FORM,
            Some(_) => 0,
        };
        let found = unsafe { oamd_row(table.as_ptr(), table.len(), index) };
        *self.seen.entry((ROW, number)).or_default() += 1;
        self.check(ROW, number, found)?;
        let shown = row.filter(|_| number == 0).map(|row| shown_floats(row));
        self.shown(table, index, number, shown)
    }

    fn shown(
        &mut self,
        table: &[i16],
        index: u32,
        number: u32,
        shown: Option<([f32; 7], Option<f32>)>,
    ) -> Result<(), Difference> {
        let mut expected = [0; 10];
        let (values, gain) = shown.unwrap_or(([0.0; 7], None));
        expected[0] = number;
        expected[1] = u32::from(gain.is_none());
        expected[2..9].copy_from_slice(&values.map(f32::to_bits));
        expected[9] = gain.unwrap_or(0.0).to_bits();
        let mut values = [f32::NAN; 8];
        let mut silent = u32::MAX;
        let (out, flag) = (values.as_mut_ptr(), &mut silent);
        let number = unsafe { oamd_shown(table.as_ptr(), table.len(), index, out, flag) };
        let mut found = [number, silent, 0, 0, 0, 0, 0, 0, 0, 0];
        found[2..].copy_from_slice(&values.map(f32::to_bits));
        self.check_all(&SHOWN, &expected, &found)
    }

    fn check_all(
        &self,
        parts: &[&'static str],
        expected: &[u32],
        found: &[u32],
    ) -> Result<(), Difference> {
        let mut numbers = parts.iter().zip(expected.iter().zip(found));
        numbers.try_for_each(|(part, (expected, found))| self.check(part, *expected, *found))
    }

    fn check(&self, part: &'static str, expected: u32, found: u32) -> Result<(), Difference> {
        let wrong = u32::from(self.spoil == Some(part));
        number(part, expected ^ wrong, found)
    }
}

/// The timings of the blocks, or the refusal: 11, then 5.
fn used(timings: &[u16], blocks: u32) -> Result<&[[u16; 2]], u32> {
    if blocks as usize > MOST_BLOCKS {
        return Err(QUERY);
    }
    let (pairs, _) = timings.as_chunks();
    pairs.get(..blocks as usize).ok_or(ROOM)
}

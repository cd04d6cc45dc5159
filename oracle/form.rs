//! The specification's form of a retained table, and random tables that have it.

use crate::random::Random;
use crate::row::{unmarked, Row};
use crate::tables::{ACTIVE, GAIN, KIND, MARK, PRIORITY, ROW_WIDTH, X};
use crate::tables::{ALL_SETTLED, DEFAULT_PICTURE, DYNAMIC, LOWEST_GAIN, RANGES, SILENCE};
use crate::tables::{COUNT, DOUBT, MOST_OBJECTS, RETAINED_HEAD, RETAINED_LENGTH};

/// Rows past the count are not looked at.
pub fn in_form(table: &[i16]) -> bool {
    let head = (0..=MOST_OBJECTS as i16).contains(&table[COUNT]) && (0..=1).contains(&table[DOUBT]);
    let rows = table[RETAINED_HEAD..RETAINED_LENGTH].chunks(ROW_WIDTH);
    head && rows.take(table[COUNT] as usize).all(row_in_form)
}

fn row_in_form(row: &[i16]) -> bool {
    can_be_shown(row) && (row[KIND] == DYNAMIC || row[MARK] == ALL_SETTLED)
}

/// The form of a row to be shown: a fixed kind may have any mark.
pub fn can_be_shown(row: &[i16]) -> bool {
    let ranged = row
        .iter()
        .zip(RANGES)
        .all(|(&number, (low, high))| (low..=high).contains(&number));
    let gain = row[GAIN] == SILENCE || row[GAIN] >= LOWEST_GAIN;
    let silent = row[ACTIVE] == 1 || (row[GAIN], row[PRIORITY]) == (SILENCE, 0);
    let fixed = row[KIND] == DYNAMIC || row[X..MARK] == DEFAULT_PICTURE;
    ranged && gain && silent && fixed
}

/// A random table in form with these kinds. Numbers past the count are any.
pub fn random_table(random: &mut Random, kinds: &[i16]) -> Vec<i16> {
    let mut table: Vec<i16> = (0..RETAINED_LENGTH).map(|_| random.next() as i16).collect();
    table[COUNT] = kinds.len() as i16;
    table[DOUBT] = i16::from(random.once_in(4));
    for (row, &kind) in table[RETAINED_HEAD..].chunks_mut(ROW_WIDTH).zip(kinds) {
        row.copy_from_slice(&random_row(random, kind));
    }
    table
}

/// A row of this kind that may be retained.
pub fn random_row(random: &mut Random, kind: i16) -> [i16; ROW_WIDTH] {
    let mut row = random_shown_row(random, kind);
    if kind != DYNAMIC {
        row[MARK] = ALL_SETTLED;
    }
    row
}

/// A row of this kind that can be shown.
pub fn random_shown_row(random: &mut Random, kind: i16) -> [i16; ROW_WIDTH] {
    let within = |random: &mut Random, (low, high): (i16, i16)| {
        let any = low + random.below((high - low + 1) as u32) as i16;
        random.pick(&[low, high, any, any, any])
    };
    let mut row = RANGES.map(|range| within(random, range));
    row[KIND] = kind;
    // No payload leads to some of the marks, so each is drawn as often as the others.
    row[MARK] = random.between(0, ALL_SETTLED as u32) as i16;
    if row[GAIN] < LOWEST_GAIN {
        row[GAIN] = random.pick(&[SILENCE, LOWEST_GAIN]);
    }
    if row[ACTIVE] == 0 {
        (row[GAIN], row[PRIORITY]) = (SILENCE, 0);
    }
    if kind != DYNAMIC {
        row[X..MARK].copy_from_slice(&DEFAULT_PICTURE);
    }
    row
}

/// The rows of a table in form, without their marks.
pub fn rows_of(table: &[i16]) -> Vec<Row> {
    let rows = table[RETAINED_HEAD..RETAINED_LENGTH].chunks(ROW_WIDTH);
    rows.take(table[COUNT] as usize).map(unmarked).collect()
}

/// A number to put in the place of another: near the edges of the ranges, or any.
pub fn other_number(random: &mut Random) -> i16 {
    let any = random.next() as i16;
    let edge = random.pick(&edges());
    random.pick(&[edge, edge, edge, any])
}

/// The ends of the ranges of the count and of every column, and the numbers next to them.
fn edges() -> Vec<i16> {
    let others = [(0, MOST_OBJECTS as i16), (LOWEST_GAIN, LOWEST_GAIN)];
    let ranges = RANGES.into_iter().chain(others);
    let mut edges: Vec<i16> = ranges
        .flat_map(|(low, high)| [low - 1, low, low + 1, high - 1, high, high + 1])
        .collect();
    edges.sort_unstable();
    edges.dedup();
    edges
}

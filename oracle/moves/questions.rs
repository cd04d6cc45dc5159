//! What the drawn calls are asked: numbers, tables and lengths, sensible and not.

use crate::calls::Name;
use crate::drawn;
use crate::lent::{Lent, BLOCKS, CARRIED, RETAINED, START, TIMINGS};
use crate::lent::{DURATION, ELAPSED, OBJECTS, STATE};
use crate::view_cases::{drawn_blocks, drawn_sample, drawn_timings};
use oracle::form::{other_number, random_shown_row, random_table};
use oracle::random::Random;
use oracle::tables::{BLOCKS_LENGTH, COUNT, RETAINED_HEAD, RETAINED_LENGTH, START_LENGTH};
use oracle::tables::{DYNAMIC, FRAME_LENGTH, KIND, MOST_OBJECTS, ROW_WIDTH};

/// Any numbers in the tables that are read and not tested.
pub fn fill(random: &mut Random, lent: &mut Lent) {
    let tables = &mut lent.tables;
    for table in [&mut tables.start, &mut tables.blocks, &mut lent.carried] {
        table.fill_with(|| random.next() as i16);
    }
}

/// All that a call looks at is drawn anew.
pub fn draw(random: &mut Random, lent: &mut Lent, name: Name) {
    lent.rule = drawn_rule(random);
    let timings = any_timings(random, lent.rule);
    lent.tables.timings[..timings.len()].copy_from_slice(&timings);
    let blocks = drawn_blocks(random, timings.len());
    lent.blocks = random.pick(&[0, blocks, blocks, blocks, blocks, blocks]);
    lent.objects = drawn_objects(random);
    lent.set_state(drawn_state(random, lent));
    lent.sample = sample(random, lent, &timings);
    lent.rule |= high_bits(random);
    lent.blocks |= high_bits(random);
    lent.objects |= high_bits(random);
    lent.sample |= high_bits(random);
    match name {
        Name::Hold => draw_retained(random, lent),
        Name::Timing | Name::Carry => draw_rows(random, lent),
        Name::Ramp | Name::Drop => {}
    }
    lent.lengths = drawn_lengths(random, lent);
    lent.forget_answers();
}

fn drawn_rule(random: &mut Random) -> u32 {
    let large = random.next() as u32;
    match random.below(16) {
        0 => random.pick(&[0, 3, u32::MAX, large]),
        1..=4 => 1,
        _ => 2,
    }
}

/// Seldom a bit that a number of 8 or 16 bits would lose.
fn high_bits(random: &mut Random) -> u32 {
    let high = random.pick(&[0x100, 0x1_0000, 0x8000_0000]);
    high * u32::from(random.once_in(80))
}

/// Half of them as programmes have them.
fn any_timings(random: &mut Random, rule: u32) -> Vec<u16> {
    if random.flag() {
        return drawn_timings(random);
    }
    let some = random.below(FRAME_LENGTH / 2);
    let end = random.pick(&[0, some]);
    drawn::timings(random, rule, end).into_flattened()
}

fn drawn_objects(random: &mut Random) -> u32 {
    let large = random.next() as u32;
    match random.below(32) {
        0 | 1 => 0,
        2 => random.pick(&[127, 128, 128]),
        3 => random.pick(&[129, 129, u32::MAX, large]),
        4 => random.between(5, 126),
        _ => random.between(1, 4),
    }
}

/// In form or not; a few say that nothing is carried.
fn drawn_state(random: &mut Random, lent: &Lent) -> [u16; STATE] {
    let objects = drawn_state_objects(random, lent.objects as u16);
    let any = random.next() as u16;
    let short = random.between(1, 4 * FRAME_LENGTH) as u16;
    let near = random.pick(&[1, 2, 1_536, 1_537, 65_534, 65_535]);
    let duration = random.pick(&[0, near, near, near, short, any]);
    if duration == 0 {
        let [objects, elapsed] = random.pick(&[[0, 0], [objects, any], [any, any]]);
        return [objects, elapsed, duration];
    }
    let remains = drawn_remains(random, lent);
    let within = duration.saturating_sub(remains);
    let further = duration.saturating_add(1);
    let elapsed = match random.below(16) {
        0 => duration,
        1 => random.pick(&[further, any, 65_535]),
        2 => 0,
        3 => duration - 1,
        _ => within.min(duration - 1),
    };
    [objects, elapsed, duration]
}

fn drawn_state_objects(random: &mut Random, objects: u16) -> u16 {
    let any = random.next() as u16;
    match random.below(16) {
        0 => objects.wrapping_add(1),
        1 => objects.wrapping_sub(1),
        2 => random.pick(&[128, 129, 65_535, any]),
        _ => objects,
    }
}

/// Around the first start, around a frame, or any.
fn drawn_remains(random: &mut Random, lent: &Lent) -> u16 {
    let first = lent.tables.timings[0];
    let any = random.next() as u16;
    let short = random.below(2 * FRAME_LENGTH) as u16;
    let around = random.pick(&[first, first, FRAME_LENGTH as u16]);
    let beside = around.wrapping_add(random.pick(&[65_535, 0, 0, 1]));
    random.pick(&[beside, beside, beside, short, any])
}

/// Often where the carried ramp ends, or beside that.
fn sample(random: &mut Random, lent: &Lent, timings: &[u16]) -> u32 {
    let end = lent.state[DURATION].wrapping_sub(lent.state[ELAPSED]);
    let beside = (u32::from(end) + random.below(3)).saturating_sub(1);
    if random.flag() && beside <= FRAME_LENGTH {
        return beside;
    }
    drawn_sample(random, timings)
}

fn draw_retained(random: &mut Random, lent: &mut Lent) {
    let count = drawn_objects(random).min(MOST_OBJECTS as u32);
    let kinds: Vec<i16> = (0..count).map(|_| random.below(4) as i16).collect();
    let table = &mut lent.tables.retained[..RETAINED_LENGTH];
    table.copy_from_slice(&random_table(random, &kinds));
    let looked_at = RETAINED_HEAD + table[COUNT] as usize * ROW_WIDTH;
    match random.below(6) {
        0 => spoil(random, &mut table[..looked_at]),
        // The mark of the last row, or the doubt.
        1 => table[looked_at - 1] = other_number(random),
        _ => {}
    }
}

/// Start and carried rows, mostly of the same kinds and in form; behind the carried ones mostly no row.
fn draw_rows(random: &mut Random, lent: &mut Lent) {
    let most = lent.objects.max(u32::from(lent.state[OBJECTS]));
    let rows = MOST_OBJECTS.min(most as usize + 1);
    let start = lent.tables.start.chunks_exact_mut(ROW_WIDTH);
    let carried = lent.carried.chunks_exact_mut(ROW_WIDTH);
    for (start, carried) in start.zip(carried).take(rows) {
        let any = random.below(4) as i16;
        let kind = random.pick(&[DYNAMIC, any]);
        start.copy_from_slice(&random_shown_row(random, kind));
        carried.copy_from_slice(&random_shown_row(random, kind));
    }
    let objects = MOST_OBJECTS.min(lent.state[OBJECTS].into());
    if objects < MOST_OBJECTS && !random.once_in(4) {
        lent.carried[objects * ROW_WIDTH + random.index(ROW_WIDTH)] = i16::MIN;
    }
    if objects == 0 {
        return;
    }
    let any = random.index(objects);
    let row = random.pick(&[0, objects - 1, any]) * ROW_WIDTH;
    match random.below(8) {
        0 => lent.tables.start[row + KIND] = random.below(5) as i16,
        1 => {
            let other = random.below(4) as i16;
            let row = &mut lent.carried[row..row + ROW_WIDTH];
            row.copy_from_slice(&random_shown_row(random, other));
        }
        2 => spoil(random, &mut lent.carried[row..row + ROW_WIDTH]),
        _ => {}
    }
}

/// One number becomes another.
fn spoil(random: &mut Random, numbers: &mut [i16]) {
    let at = random.index(numbers.len());
    numbers[at] = other_number(random);
}

/// Each whole or exactly what is needed; now and then one of them is shorter.
fn drawn_lengths(random: &mut Random, lent: &Lent) -> [usize; 5] {
    let whole = lent.whole();
    let timings = whole[TIMINGS].min(2 * lent.blocks as usize);
    let exact = [
        RETAINED_LENGTH,
        START_LENGTH,
        BLOCKS_LENGTH,
        timings,
        START_LENGTH,
    ];
    const TABLES: [usize; 5] = [RETAINED, START, BLOCKS, TIMINGS, CARRIED];
    let mut lengths = TABLES.map(|table| random.pick(&[whole[table], exact[table]]));
    if random.once_in(4) {
        // Of the four calls that need room, three look at the timings.
        let any = random.pick(&TABLES);
        let table = random.pick(&[any, any, TIMINGS]);
        let short = exact[table].saturating_sub(1);
        lengths[table] = random.pick(&[0, short, short, short]);
    }
    lengths
}

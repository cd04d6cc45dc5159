//! The five calls by the words of request Q-7, in plain Rust. Rule 1 is the Rust's own test and choice.

use crate::calls::{Calls, Name};
use crate::lent::{Lent, BLOCKS, CARRIED, CARRIED_ROW, RAMP, RETAINED, START, TIMINGS};
use crate::lent::{DURATION, ELAPSED, OBJECTS, STATE};
use oracle::form::{can_be_shown, in_form};
use oracle::tables::{BLOCKS_LENGTH, COUNT, DOUBT, RETAINED_HEAD, RETAINED_LENGTH, START_LENGTH};
use oracle::tables::{
    FRAME_LENGTH, KIND, MARK, MOST_BLOCKS, MOST_OBJECTS, NONE_SETTLED, ROW_WIDTH,
};
use oracle::timing::{elapsed_and_duration, ramp_choice, timing_number};

pub const ROOM: u32 = 5;
pub const FORM: u32 = 6;
pub const ORDERING: u32 = 8;
pub const OVERLAP: u32 = 9;
pub const CROSS_FRAME: u32 = 10;
pub const QUERY: u32 = 11;
pub const RULE: u32 = 16;

pub const BY_WORDS: Calls = Calls([hold, timing, ramp, carry, drop]);

/// The refusals that there is a reason for, in the order of their tests.
pub fn reasons(name: Name, lent: &Lent) -> Vec<u32> {
    let tests = [
        (RULE, unknown_rule as fn(Name, &Lent) -> bool),
        (QUERY, asks_too_much),
        (ROOM, lacks_room),
        (FORM, out_of_form),
    ];
    let reasons = tests.iter().filter(|(_, test)| test(name, lent));
    reasons.map(|(number, _)| *number).collect()
}

fn refusal(name: Name, lent: &Lent) -> Option<u32> {
    reasons(name, lent).first().copied()
}

pub fn unknown_rule(name: Name, lent: &Lent) -> bool {
    let ruled = matches!(name, Name::Timing | Name::Ramp | Name::Carry);
    ruled && ![1, 2].contains(&lent.rule)
}

pub fn asks_too_much(name: Name, lent: &Lent) -> bool {
    let blocks = lent.blocks as usize > MOST_BLOCKS;
    match name {
        Name::Timing | Name::Carry => blocks || lent.objects as usize > MOST_OBJECTS,
        Name::Ramp => blocks || lent.sample >= FRAME_LENGTH,
        Name::Hold | Name::Drop => false,
    }
}

pub fn lacks_room(name: Name, lent: &Lent) -> bool {
    let timings = (TIMINGS, 2 * lent.blocks as usize);
    let start = (START, START_LENGTH);
    // Under rule 1 nothing carried is tested, not even its room.
    let carried = (CARRIED, if lent.rule == 1 { 0 } else { START_LENGTH });
    let needed = match name {
        Name::Hold => vec![(RETAINED, RETAINED_LENGTH), start],
        Name::Timing => vec![timings, start, carried],
        Name::Ramp => vec![timings],
        Name::Carry => vec![timings, start, (BLOCKS, BLOCKS_LENGTH), carried],
        Name::Drop => vec![],
    };
    let short = |(table, length): (usize, usize)| lent.lengths[table] < length;
    needed.into_iter().any(short)
}

pub fn out_of_form(name: Name, lent: &Lent) -> bool {
    match name {
        Name::Hold => !in_form(&lent.tables.retained),
        Name::Drop => false,
        _ if lent.rule == 1 || lent.state[DURATION] == 0 => false,
        Name::Ramp => state_out_of_form(lent),
        Name::Timing | Name::Carry => {
            let rows = lent.carried.chunks_exact(ROW_WIDTH);
            let mut carried = rows.take(lent.state[OBJECTS].into());
            state_out_of_form(lent) || !carried.all(can_be_shown)
        }
    }
}

fn state_out_of_form(lent: &Lent) -> bool {
    lent.state[ELAPSED] >= lent.state[DURATION] || usize::from(lent.state[OBJECTS]) > MOST_OBJECTS
}

fn hold(lent: &mut Lent) -> u32 {
    lent.held[0] = 0;
    if let Some(refusal) = refusal(Name::Hold, lent) {
        return refusal;
    }
    let tables = &mut lent.tables;
    lent.held[0] = tables.retained[COUNT] as u32;
    let width = tables.retained[COUNT] as usize * ROW_WIDTH;
    let rows = &tables.retained[RETAINED_HEAD..RETAINED_HEAD + width];
    tables.start[..width].copy_from_slice(rows);
    if tables.retained[DOUBT] == 1 {
        let start = tables.start[..width].chunks_mut(ROW_WIDTH);
        start.for_each(|row| row[MARK] = NONE_SETTLED);
    }
    0
}

fn timing(lent: &mut Lent) -> u32 {
    if let Some(refusal) = refusal(Name::Timing, lent) {
        return refusal;
    }
    if lent.rule == 1 || lent.state[DURATION] == 0 || !goes_on(lent) {
        drop(lent);
    }
    let number = tested(lent);
    if number != 0 {
        drop(lent);
    }
    number
}

/// Whether the carried rows are as many as the start rows, and of the same kinds.
fn goes_on(lent: &Lent) -> bool {
    let rows = lent.objects as usize * ROW_WIDTH;
    let kinds = |table: &[i16]| -> Vec<i16> {
        let rows = table[..rows].chunks(ROW_WIDTH);
        rows.map(|row| row[KIND]).collect()
    };
    let as_many = u32::from(lent.state[OBJECTS]) == lent.objects;
    as_many && kinds(&lent.carried) == kinds(&lent.tables.start)
}

/// What the timing test says: 0, 8, 9 or 10.
pub fn tested(lent: &Lent) -> u32 {
    let timings = lent.timings();
    if lent.rule == 1 {
        return timing_number(timings).into();
    }
    if falls(timings) {
        return ORDERING;
    }
    by_blocks(timings, remains(lent))
}

pub fn falls(timings: &[[u16; 2]]) -> bool {
    timings.windows(2).any(|pair| pair[1][0] < pair[0][0])
}

/// The test of rule 2, block by block, behind an end that is so far in the frame.
pub fn by_blocks(timings: &[[u16; 2]], mut end: u32) -> u32 {
    for [start, ramp] in timings.iter().map(|pair| pair.map(u32::from)) {
        if start < end {
            return OVERLAP;
        }
        if start > FRAME_LENGTH {
            return CROSS_FRAME;
        }
        end = start + ramp;
    }
    0
}

/// What remains of the carried ramp at the frame's first sample.
pub fn remains(lent: &Lent) -> u32 {
    u32::from(lent.state[DURATION].saturating_sub(lent.state[ELAPSED]))
}

fn ramp(lent: &mut Lent) -> u32 {
    lent.answer[..RAMP].fill(0);
    lent.fraction[0] = 0;
    if let Some(refusal) = refusal(Name::Ramp, lent) {
        return refusal;
    }
    let elapsed = u32::from(lent.state[ELAPSED]) + lent.sample;
    let duration = u32::from(lent.state[DURATION]);
    let answer = if lent.rule == 2 && elapsed < duration {
        [CARRIED_ROW, 0, elapsed, duration]
    } else {
        walked(lent)
    };
    lent.answer[..RAMP].copy_from_slice(&answer);
    lent.fraction[0] = (answer[2] as f32 / answer[3] as f32).to_bits();
    0
}

/// The choice of rule 1.
pub fn walked(lent: &Lent) -> [u32; RAMP] {
    let choice = ramp_choice(lent.timings(), lent.sample as usize);
    let [elapsed, duration] = elapsed_and_duration(lent.timings(), lent.sample);
    let fraction = elapsed as f32 / duration as f32;
    assert_eq!(fraction.to_bits(), choice.fraction, "the Rust's fraction");
    [choice.from as u32, choice.to as u32, elapsed, duration]
}

fn carry(lent: &mut Lent) -> u32 {
    if let Some(refusal) = refusal(Name::Carry, lent) {
        return refusal;
    }
    let number = tested(lent);
    let [objects, elapsed, duration, _] = lent.state;
    drop(lent);
    if number != 0 || lent.rule == 1 {
        return number;
    }
    let frame = FRAME_LENGTH as u16;
    match lent.timings().last() {
        None if u32::from(elapsed) + FRAME_LENGTH < u32::from(duration) => {
            lent.set_state([objects, elapsed + frame, duration]);
        }
        Some(&[start, ramp]) if u32::from(start) + u32::from(ramp) > FRAME_LENGTH => {
            lent.set_state([lent.objects as u16, frame - start, ramp]);
            write_rows_before(lent);
        }
        _ => {}
    }
    0
}

/// The rows before the last block become the carried ones.
fn write_rows_before(lent: &mut Lent) {
    let rows = lent.rows(lent.blocks - 1).expect("whole tables").to_vec();
    lent.carried[..rows.len()].copy_from_slice(&rows);
}

pub fn drop(lent: &mut Lent) -> u32 {
    lent.state[..STATE].fill(0);
    0
}

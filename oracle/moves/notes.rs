//! What is to be said of a frame and of its moves, in the names of `seen`.

use crate::drawn::LONGEST;
use crate::seen;
use crate::stage::Source;
use crate::timeline::{objects, same_kinds, Thing};
use oracle::tables::{ALL_SETTLED, FRAME_LENGTH, MARK, MOST_OBJECTS, ROW_WIDTH};

type Name = &'static str;

/// The names of what holds.
fn held<const N: usize>(names: [(bool, Name); N]) -> Vec<Name> {
    let held = names.into_iter().filter(|(holds, _)| *holds);
    held.map(|(_, name)| name).collect()
}

/// A move, by its start in its frame and its duration.
pub fn of_move(start: u32, duration: u32) -> Vec<Name> {
    let end = start + duration;
    let past_edge = end % FRAME_LENGTH;
    let moves = duration > 0;
    held([
        (!moves, seen::NO_DURATION),
        (!moves && start == FRAME_LENGTH, seen::START_AND_END),
        (moves && start == FRAME_LENGTH, seen::START_AT_EDGE),
        (moves && duration <= 10, seen::SHORT),
        (moves && end < FRAME_LENGTH, seen::WITHIN),
        (moves && end == FRAME_LENGTH, seen::AT_FIRST_EDGE),
        (moves && past_edge == FRAME_LENGTH - 1, seen::BEFORE_EDGE),
        (moves && past_edge == 0, seen::AT_EDGE),
        (moves && past_edge == 1, seen::BEHIND_EDGE),
        (duration == LONGEST, seen::LONGEST),
        (moves && end <= FRAME_LENGTH, seen::OVER_NONE),
    ])
}

/// A move that is under way at the first sample of a frame which passes.
pub fn of_carried(thing: &Thing, edge: u64, source: Source) -> Vec<Name> {
    let mut names = vec![
        match objects(&thing.to) {
            0 => seen::NO_OBJECTS,
            1..=8 => seen::FEW_OBJECTS,
            MOST_OBJECTS => seen::ALL_OBJECTS,
            _ => seen::MANY_OBJECTS,
        },
        match source {
            Source::Made | Source::Accepted => seen::BY_BLOCKS,
            Source::Refused => seen::REFUSED_PAYLOAD,
            Source::Absent => seen::NO_PAYLOAD,
        },
    ];
    if thing.end() <= edge + u64::from(FRAME_LENGTH) {
        names.push(match thing.edges() {
            0 => seen::OVER_NONE,
            1 => seen::OVER_ONE,
            2..=5 => seen::OVER_FIVE,
            6..=41 => seen::OVER_MANY,
            _ => seen::OVER_MOST,
        });
    }
    names
}

/// The first start of a frame, in which a move under way ends so far.
pub fn of_first(first: u32, end: u32) -> Vec<Name> {
    held([
        (first == end, seen::FIRST_AT),
        (first > end, seen::FIRST_ABOVE),
        (first + 1 == end, seen::FIRST_ONE_BELOW),
        (first + 1 < end, seen::FIRST_BELOW),
        (end >= FRAME_LENGTH, seen::FIRST_IN_LONG),
    ])
}

/// Start rows of other kinds than those that stood there.
pub fn of_kinds(start: &[i16], before: &[i16]) -> Vec<Name> {
    let shorter = start.len().min(before.len());
    let count = start.len() != before.len();
    let some = same_kinds(&start[..shorter], &before[..shorter]);
    held([
        (!count, seen::OTHER_KINDS),
        (count, seen::OTHER_COUNT),
        (count && some, seen::MORE_OR_FEWER),
    ])
}

/// The rows that a frame without blocks begins with.
pub fn of_held(rows: &[i16], doubt: bool) -> Name {
    match rows {
        [] => seen::HELD_NONE,
        _ if doubt => seen::HELD_IN_DOUBT,
        _ => seen::HELD,
    }
}

/// The rows that a move of a payload over the edge comes from.
pub fn of_rows(rows: &[i16]) -> Vec<Name> {
    let mut marks = rows.chunks(ROW_WIDTH).map(|row| row[MARK]);
    let unsettled = marks.any(|mark| mark != ALL_SETTLED);
    held([
        (true, seen::CARRIED_OF_PAYLOADS),
        (unsettled, seen::UNSETTLED_CARRIED),
    ])
}

/// Timings that rule 2 refuses: whether the block before ends past the frame, though no end is tested.
pub fn of_refusal(number: u32, blocks_until: &[[u16; 2]]) -> Vec<Name> {
    let past = match blocks_until {
        [.., [start, ramp], _] => u32::from(*start) + u32::from(*ramp) > FRAME_LENGTH,
        _ => false,
    };
    held([
        (number == 9 && past, seen::BEHIND_END_9),
        (number == 10 && past, seen::BEHIND_END_10),
    ])
}

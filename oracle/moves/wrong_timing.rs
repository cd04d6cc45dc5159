//! Wrong timing calls.

use crate::calls::{timing, Name};
use crate::lent::{Lent, CARRIED, DURATION, ELAPSED, OBJECTS};
use crate::model::{by_blocks, drop, falls, remains, tested};
use crate::model::{CROSS_FRAME, FORM, ORDERING, OVERLAP, QUERY, ROOM, RULE};
use crate::wrong::{is_refused, kept, swapped, with_room, Fault};
use oracle::form::can_be_shown;
use oracle::tables::{FRAME_LENGTH, KIND, MOST_OBJECTS, ROW_WIDTH, START_LENGTH};
use std::mem::take;

const NAME: Name = Name::Timing;

pub const TESTS: [Fault; 13] = [
    Fault::played(NAME, "what remains is one too few", |lent| {
        retested(lent, |lent| in_order(lent, remains(lent).saturating_sub(1)))
    }),
    Fault::played(NAME, "what remains is one too many", |lent| {
        retested(lent, |lent| {
            in_order(lent, remains(lent) + remains(lent).min(1))
        })
    }),
    Fault::played(NAME, "what remains is not looked at", |lent| {
        retested(lent, |lent| in_order(lent, 0))
    }),
    Fault::played(NAME, "the elapsed samples are taken for it", |lent| {
        retested(lent, |lent| in_order(lent, lent.state[ELAPSED].into()))
    }),
    Fault::played(NAME, "the duration is taken for it", |lent| {
        retested(lent, |lent| in_order(lent, lent.state[DURATION].into()))
    }),
    Fault::played(NAME, "rule 2 tests the end", |lent| {
        retested(lent, |lent| {
            each(lent, |start, end, before| {
                [overlap(start < before), cross(end > FRAME_LENGTH)]
            })
        })
    }),
    Fault::played(NAME, "10 before 9 in a block", |lent| {
        retested(lent, |lent| {
            each(lent, |start, _, before| {
                [cross(start > FRAME_LENGTH), overlap(start < before)]
            })
        })
    }),
    Fault::played(NAME, "9 and 10 before 8", |lent| {
        retested(lent, |lent| {
            match by_blocks(lent.timings(), remains(lent)) {
                0 => tested(lent),
                number => number,
            }
        })
    }),
    Fault::played(NAME, "equal starts give 8", |lent| {
        retested(lent, |lent| {
            let mut pairs = lent.timings().windows(2);
            match pairs.any(|pair| pair[0][0] == pair[1][0]) {
                true => ORDERING,
                false => tested(lent),
            }
        })
    }),
    Fault::played(NAME, "the first two starts alone may give 8", |lent| {
        retested(lent, |lent| {
            let timings = lent.timings();
            match falls(&timings[..timings.len().min(2)]) {
                true => ORDERING,
                false => by_blocks(timings, remains(lent)),
            }
        })
    }),
    Fault::played(NAME, "an end is taken in 16 bits", |lent| {
        retested(lent, |lent| {
            each(lent, |start, _, before| {
                let small = before & 0xffff;
                [overlap(start < small), cross(start > FRAME_LENGTH)]
            })
        })
    }),
    Fault::played(NAME, "a start at 1,536 gives 10", |lent| {
        retested(lent, |lent| {
            each(lent, |start, _, before| {
                [overlap(start < before), cross(start >= FRAME_LENGTH)]
            })
        })
    }),
    Fault::played(NAME, "a start at 1,537 passes", |lent| {
        retested(lent, |lent| {
            each(lent, |start, _, before| {
                [overlap(start < before), cross(start > FRAME_LENGTH + 1)]
            })
        })
    }),
];

pub const STATES: [Fault; 8] = [
    Fault::played(NAME, "a change of kinds keeps the move", |lent| {
        of_carried_kinds(lent, 0)
    }),
    Fault::played(NAME, "the first kind alone is compared", |lent| {
        of_carried_kinds(lent, 1)
    }),
    Fault::played(NAME, "the last kind is not compared", |lent| {
        of_carried_kinds(lent, (lent.objects as usize).saturating_sub(1))
    }),
    Fault::played(NAME, "another count of objects keeps the move", |lent| {
        of_fewer_objects(lent)
    }),
    Fault::played(NAME, "other kinds drop it behind the test", |lent| {
        let number = tested(lent);
        let right = timing(lent);
        if lent.rule != 2 || is_refused(right) || number == 0 {
            return right;
        }
        drop(lent);
        number
    }),
    Fault::played(NAME, "a timing refusal keeps the move", |lent| {
        kept(NAME, lent, |before, number| before.rule == 2 && number != 0)
    }),
    Fault::played(NAME, "a frame under rule 1 keeps the move", |lent| {
        kept(NAME, lent, |before, number| before.rule == 1 && number == 0)
    }),
    Fault::asked(NAME, "a state that carries nothing stays", |lent| {
        kept(NAME, lent, |before, _| before.state[DURATION] == 0)
    }),
];

pub const REFUSALS: [Fault; 12] = [
    Fault::asked(NAME, "the rule's lowest byte alone is read", |lent| {
        let rule = lent.rule;
        lent.rule &= 0xff;
        let number = timing(lent);
        lent.rule = rule;
        number
    }),
    Fault::asked(NAME, "11 before 16", |lent| {
        swapped(NAME, lent, RULE, QUERY)
    }),
    Fault::asked(NAME, "5 before 11", |lent| swapped(NAME, lent, QUERY, ROOM)),
    Fault::asked(NAME, "6 before 5", |lent| swapped(NAME, lent, ROOM, FORM)),
    Fault::asked(NAME, "8, 9 and 10 before 6", |lent| {
        let number = tested(lent);
        match timing(lent) {
            FORM if number != 0 => number,
            right => right,
        }
    }),
    Fault::asked(NAME, "6 is tested under rule 1", |lent| {
        spurned(lent, FORM, |lent| {
            let [_, elapsed, duration, _] = lent.state;
            lent.rule == 1 && duration > 0 && elapsed >= duration
        })
    }),
    Fault::asked(NAME, "6 is tested with duration 0", |lent| {
        spurned(lent, FORM, |lent| {
            lent.rule == 2 && usize::from(lent.state[OBJECTS]) > MOST_OBJECTS
        })
    }),
    Fault::played(NAME, "the row behind the carried ones is tested", |lent| {
        spurned(lent, FORM, |lent| {
            let mut rows = lent.carried.chunks_exact(ROW_WIDTH);
            let behind = rows.nth(lent.state[OBJECTS].into());
            let carries = lent.rule == 2 && lent.state[DURATION] > 0;
            carries && !behind.is_none_or(can_be_shown)
        })
    }),
    Fault::asked(NAME, "the carried rows are not tested", |lent| {
        let objects = usize::from(lent.state[OBJECTS]);
        let state = lent.state[ELAPSED] < lent.state[DURATION] && objects <= MOST_OBJECTS;
        forgiven(lent, state)
    }),
    Fault::asked(NAME, "elapsed may be the duration", |lent| {
        forgiven(lent, lent.state[ELAPSED] == lent.state[DURATION])
    }),
    Fault::asked(
        NAME,
        "room is tested of carried rows under rule 1",
        |lent| {
            spurned(lent, ROOM, |lent| {
                lent.rule == 1 && lent.lengths[CARRIED] < START_LENGTH
            })
        },
    ),
    Fault::asked(
        NAME,
        "it is not tested with duration 0",
        |lent| match lent.state[DURATION] {
            0 => with_room(NAME, lent),
            _ => timing(lent),
        },
    ),
];

/// The call with another test under rule 2; the state that the test sees is the one that goes on.
fn retested(lent: &mut Lent, test: fn(&Lent) -> u32) -> u32 {
    if lent.rule != 2 || is_refused(timing(&mut lent.clone())) {
        return timing(lent);
    }
    let blocks = take(&mut lent.blocks);
    timing(lent);
    lent.blocks = blocks;
    let number = test(lent);
    if number != 0 {
        drop(lent);
    }
    number
}

/// The test of rule 2, behind another end.
fn in_order(lent: &Lent, end: u32) -> u32 {
    match falls(lent.timings()) {
        true => ORDERING,
        false => by_blocks(lent.timings(), end),
    }
}

/// Another test of each block, by its start, its end, and the end before it. The first number holds.
fn each(lent: &Lent, judged: fn(u32, u32, u32) -> [u32; 2]) -> u32 {
    if falls(lent.timings()) {
        return ORDERING;
    }
    let mut before = remains(lent);
    for [start, ramp] in lent.timings().iter().map(|pair| pair.map(u32::from)) {
        let numbers = judged(start, start + ramp, before);
        if let Some(number) = numbers.into_iter().find(|number| *number != 0) {
            return number;
        }
        before = start + ramp;
    }
    0
}

fn overlap(is_given: bool) -> u32 {
    u32::from(is_given) * OVERLAP
}

fn cross(is_given: bool) -> u32 {
    u32::from(is_given) * CROSS_FRAME
}

/// The call with start rows that have the carried kinds, from this object on.
fn of_carried_kinds(lent: &mut Lent, first: usize) -> u32 {
    let start = lent.tables.start.clone();
    let carried = lent.carried.chunks_exact(ROW_WIDTH);
    let rows = lent.tables.start.chunks_exact_mut(ROW_WIDTH).zip(carried);
    rows.skip(first)
        .for_each(|(row, carried)| row[KIND] = carried[KIND]);
    let number = timing(lent);
    lent.tables.start = start;
    number
}

/// The call with as many objects as both the frame and the state have.
fn of_fewer_objects(lent: &mut Lent) -> u32 {
    let (objects, count) = (lent.objects, lent.state[OBJECTS]);
    let [fewer, more] = [objects.min(count.into()), objects.max(count.into())];
    if more as usize > MOST_OBJECTS {
        return timing(lent);
    }
    (lent.objects, lent.state[OBJECTS]) = (fewer, fewer as u16);
    let number = timing(lent);
    lent.objects = objects;
    if lent.state[DURATION] > 0 || is_refused(number) {
        lent.state[OBJECTS] = count;
    }
    number
}

/// A refusal that is wrong, where nothing was to be refused yet.
fn spurned(lent: &mut Lent, refusal: u32, is_wrong: fn(&Lent) -> bool) -> u32 {
    if is_wrong(lent) && !is_refused(timing(&mut lent.clone())) {
        return refusal;
    }
    timing(lent)
}

/// What is out of form is taken for nothing.
fn forgiven(lent: &mut Lent, is_forgiven: bool) -> u32 {
    match timing(lent) {
        FORM if is_forgiven => {
            drop(lent);
            tested(lent)
        }
        number => number,
    }
}

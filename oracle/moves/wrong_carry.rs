//! Wrong ways to carry a move over the frame edge.

use crate::calls::{carry, Name};
use crate::lent::{Lent, CARRIED, DURATION, ELAPSED, OBJECTS};
use crate::model::{drop, tested, FORM, QUERY, ROOM, RULE};
use crate::wrong::{is_refused, kept, swapped, with_room, Fault};
use oracle::tables::{FRAME_LENGTH, KIND, MOST_OBJECTS, ROW_WIDTH, START_LENGTH};

const NAME: Name = Name::Carry;
const FRAME: u16 = FRAME_LENGTH as u16;

/// How much has elapsed, how long the move is, and whether there is one.
pub const STATES: [Fault; 15] = [
    Fault::played(NAME, "1,536 samples too many have elapsed", |lent| {
        over(lent, |lent, _| {
            lent.state[ELAPSED] = lent.state[ELAPSED].saturating_add(FRAME)
        })
    }),
    Fault::played(NAME, "one sample too few has elapsed", |lent| {
        over(lent, |lent, _| {
            lent.state[ELAPSED] = lent.state[ELAPSED].saturating_sub(1)
        })
    }),
    Fault::played(NAME, "one sample too many has elapsed", |lent| {
        over(lent, |lent, _| lent.state[ELAPSED] += 1)
    }),
    Fault::played(NAME, "a frame without blocks adds 1,535", |lent| {
        silent(lent, |lent, _| {
            lent.state[ELAPSED] = lent.state[ELAPSED].saturating_sub(1)
        })
    }),
    Fault::played(NAME, "a frame without blocks adds nothing", |lent| {
        silent(lent, |lent, before| lent.state = before.state)
    }),
    Fault::played(NAME, "a frame without blocks drops the move", |lent| {
        silent(lent, |lent, _| {
            drop(lent);
        })
    }),
    Fault::played(NAME, "1,536 more are added in 16 bits", |lent| {
        silent(lent, |lent, before| {
            let [objects, elapsed, duration, _] = before.state;
            let (sum, is_over) = elapsed.overflowing_add(FRAME);
            if is_over && sum < duration {
                lent.set_state([objects, sum, duration]);
            }
        })
    }),
    Fault::played(NAME, "an end at 1,536 is carried", |lent| {
        last(lent, |lent, start, ramp| {
            if ramp > 0 && start + u32::from(ramp) == FRAME_LENGTH {
                lent.set_state([lent.objects as u16, ramp, ramp]);
            }
        })
    }),
    Fault::played(NAME, "an end at 1,537 is not carried", |lent| {
        last(lent, |lent, start, ramp| {
            if start + u32::from(ramp) == FRAME_LENGTH + 1 {
                drop(lent);
            }
        })
    }),
    Fault::played(NAME, "a start at 1,536 is not carried", |lent| {
        last(lent, |lent, start, _| {
            if start == FRAME_LENGTH {
                drop(lent);
            }
        })
    }),
    Fault::played(NAME, "an end is taken in 16 bits", |lent| {
        last(lent, |lent, start, ramp| {
            if (start as u16).wrapping_add(ramp) <= FRAME {
                drop(lent);
            }
        })
    }),
    Fault::played(NAME, "the duration of the block before", |lent| {
        over(lent, |lent, _| {
            if let [.., [_, ramp], _] = *lent.timings() {
                lent.state[DURATION] = ramp;
            }
        })
    }),
    Fault::played(NAME, "elapsed since the block before", |lent| {
        over(lent, |lent, _| {
            if let [.., [start, _], _] = *lent.timings() {
                lent.state[ELAPSED] = FRAME - start;
            }
        })
    }),
    Fault::played(NAME, "the remaining samples as the duration", |lent| {
        over(lent, |lent, _| lent.state[DURATION] -= lent.state[ELAPSED])
    }),
    Fault::played(NAME, "the objects are not said", |lent| {
        over(lent, |lent, _| lent.state[OBJECTS] = 0)
    }),
];

/// Which rows the move comes from.
pub const ROWS: [Fault; 8] = [
    Fault::played(NAME, "from the start row, behind another block", |lent| {
        over(lent, |lent, _| write(lent, 0))
    }),
    Fault::played(NAME, "from the last block itself", |lent| {
        over(lent, |lent, _| write(lent, lent.blocks))
    }),
    Fault::played(NAME, "from the first block", |lent| {
        over(lent, |lent, _| write(lent, lent.blocks.min(1)))
    }),
    Fault::played(NAME, "the carried rows stay", |lent| {
        over(lent, |lent, before| {
            lent.carried.copy_from_slice(&before.carried)
        })
    }),
    Fault::played(NAME, "the last row stays", |lent| {
        over(lent, |lent, before| {
            let last = (lent.objects as usize).saturating_sub(1) * ROW_WIDTH;
            lent.carried[last..].copy_from_slice(&before.carried[last..]);
        })
    }),
    Fault::played(NAME, "one row more is written", |lent| {
        over(lent, |lent, _| {
            let mut rows = lent.carried.chunks_exact_mut(ROW_WIDTH);
            if let Some(behind) = rows.nth(lent.objects as usize) {
                behind.fill(0);
            }
        })
    }),
    Fault::played(NAME, "rows are written though nothing goes over", |lent| {
        let blocks = lent.blocks;
        let number = carry(lent);
        if number == 0 && lent.rule == 2 && blocks > 0 && lent.state[DURATION] == 0 {
            write(lent, blocks);
        }
        number
    }),
    Fault::played(NAME, "the start rows are carried on", |lent| {
        silent(lent, |lent, _| {
            if lent.state[DURATION] > 0 {
                write(lent, 0);
            }
        })
    }),
];

pub const REFUSALS: [Fault; 12] = [
    Fault::asked(NAME, "rule 1 carries", |lent| {
        let rule = lent.rule;
        if rule == 1 && !is_refused(carry(&mut lent.clone())) {
            lent.rule = 2;
        }
        let number = carry(lent);
        lent.rule = rule;
        number
    }),
    Fault::asked(NAME, "rule 1 keeps the state", |lent| {
        kept(NAME, lent, |before, _| before.rule == 1)
    }),
    Fault::asked(NAME, "a timing refusal keeps the state", |lent| {
        kept(NAME, lent, |_, number| [8, 9, 10].contains(&number))
    }),
    Fault::asked(NAME, "what remains is not looked at", |lent| {
        let state = lent.state;
        if lent.rule == 2 && lent.blocks > 0 && !is_refused(carry(&mut lent.clone())) {
            drop(lent);
        }
        let number = carry(lent);
        if is_refused(number) {
            lent.state = state;
        }
        number
    }),
    Fault::asked(NAME, "the kinds are compared again", |lent| {
        let other = lent.carried[KIND] != lent.tables.start[KIND];
        let number = carry(lent);
        if number == 0 && lent.blocks == 0 && lent.objects > 0 && other {
            drop(lent);
        }
        number
    }),
    Fault::asked(NAME, "the timings are not tested", |lent| {
        match carry(lent) {
            8..=10 => 0,
            number => number,
        }
    }),
    Fault::asked(NAME, "11 before 16", |lent| {
        swapped(NAME, lent, RULE, QUERY)
    }),
    Fault::asked(NAME, "5 before 11", |lent| swapped(NAME, lent, QUERY, ROOM)),
    Fault::asked(NAME, "6 before 5", |lent| swapped(NAME, lent, ROOM, FORM)),
    Fault::asked(NAME, "8, 9 and 10 before 6", |lent| {
        let number = tested(lent);
        match carry(lent) {
            FORM if number != 0 => number,
            right => right,
        }
    }),
    Fault::asked(NAME, "129 objects in the state pass", |lent| {
        let objects = lent.state[OBJECTS];
        if usize::from(objects) != MOST_OBJECTS + 1 {
            return carry(lent);
        }
        lent.state[OBJECTS] = 0;
        let number = carry(lent);
        if is_refused(number) {
            lent.state[OBJECTS] = objects;
        }
        number
    }),
    Fault::asked(
        NAME,
        "room is not tested with duration 0",
        |lent| match lent.state[DURATION] {
            0 if lent.lengths[CARRIED] < START_LENGTH => with_room(NAME, lent),
            _ => carry(lent),
        },
    ),
];

/// The call, and a change behind it where it passed under rule 2.
fn behind(lent: &mut Lent, change: impl FnOnce(&mut Lent, &Lent)) -> u32 {
    let before = lent.clone();
    let number = carry(lent);
    if number == 0 && lent.rule == 2 {
        change(lent, &before);
    }
    number
}

/// Where the last block's move goes over.
fn over(lent: &mut Lent, change: fn(&mut Lent, &Lent)) -> u32 {
    behind(lent, |lent, before| {
        if lent.blocks > 0 && lent.state[DURATION] > 0 {
            change(lent, before);
        }
    })
}

/// In a frame without blocks.
fn silent(lent: &mut Lent, change: fn(&mut Lent, &Lent)) -> u32 {
    behind(lent, |lent, before| {
        if lent.blocks == 0 {
            change(lent, before);
        }
    })
}

/// In a frame with blocks, by the start and the ramp of the last.
fn last(lent: &mut Lent, change: fn(&mut Lent, u32, u16)) -> u32 {
    behind(lent, |lent, _| {
        if let Some(&[start, ramp]) = lent.timings().last() {
            change(lent, start.into(), ramp);
        }
    })
}

/// The rows of this number become the carried ones.
fn write(lent: &mut Lent, row_number: u32) {
    let rows = lent.rows(row_number).expect("a row of the frame").to_vec();
    lent.carried[..rows.len()].copy_from_slice(&rows);
}

//! Wrong choices at a sample.

use crate::calls::{ramp, Name};
use crate::lent::{Lent, CARRIED_ROW, DURATION, ELAPSED, OBJECTS, RAMP};
use crate::model::{walked, FORM, QUERY, ROOM, RULE};
use crate::wrong::{swapped, Fault};
use oracle::tables::MOST_OBJECTS;

const NAME: Name = Name::Ramp;

pub const FAULTS: [Fault; 19] = [
    Fault::played(NAME, "the move comes from the start row", |lent| {
        while_carried(lent, |lent| lent.answer[0] = 0)
    }),
    Fault::played(NAME, "it goes to the carried row", |lent| {
        while_carried(lent, |lent| lent.answer[1] = CARRIED_ROW)
    }),
    Fault::played(NAME, "it goes to the first block", |lent| {
        while_carried(lent, |lent| lent.answer[1] = lent.blocks.min(1))
    }),
    Fault::played(NAME, "it comes from the target, and goes back", |lent| {
        while_carried(lent, |lent| lent.answer.swap(0, 1))
    }),
    Fault::played(NAME, "it runs one sample longer", |lent| {
        let number = ramp(lent);
        if number == 0 && sum(lent) == duration(lent) && carries(lent) {
            give(lent, [CARRIED_ROW, 0, sum(lent), duration(lent)]);
        }
        number
    }),
    Fault::played(NAME, "it runs one sample shorter", |lent| {
        while_carried(lent, |lent| {
            if sum(lent) + 1 == duration(lent) {
                give(lent, walked(lent));
            }
        })
    }),
    Fault::played(NAME, "the sample is not added", |lent| {
        while_carried(lent, |lent| {
            give(lent, [CARRIED_ROW, 0, elapsed(lent), duration(lent)])
        })
    }),
    Fault::played(NAME, "what has elapsed is one too many", |lent| {
        while_carried(lent, |lent| {
            give(lent, [CARRIED_ROW, 0, sum(lent) + 1, duration(lent)])
        })
    }),
    Fault::played(NAME, "the sum is taken in 16 bits", |lent| {
        let number = ramp(lent);
        let small = sum(lent) & 0xffff;
        if number == 0 && small < duration(lent) && carries(lent) {
            give(lent, [CARRIED_ROW, 0, small, duration(lent)]);
        }
        number
    }),
    Fault::asked(NAME, "a block that has started goes first", |lent| {
        while_carried(lent, |lent| {
            let first = lent.timings().first();
            if first.is_some_and(|[start, _]| u32::from(*start) <= lent.sample) {
                give(lent, walked(lent));
            }
        })
    }),
    Fault::played(NAME, "the fraction is made by a reciprocal", |lent| {
        while_carried(lent, |lent| {
            let part = sum(lent) as f32 * (1.0 / duration(lent) as f32);
            lent.fraction[0] = part.to_bits();
        })
    }),
    Fault::played(NAME, "the fraction is that of the sample before", |lent| {
        while_carried(lent, |lent| {
            let part = sum(lent).saturating_sub(1) as f32 / duration(lent) as f32;
            lent.fraction[0] = part.to_bits();
        })
    }),
    Fault::asked(NAME, "rule 1 takes the move up", |lent| {
        let rule = lent.rule;
        lent.rule += u32::from(rule == 1);
        let number = ramp(lent);
        lent.rule = rule;
        number
    }),
    Fault::asked(NAME, "a sample of more than 16 bits passes", |lent| {
        let sample = lent.sample;
        lent.sample &= 0xffff;
        let number = ramp(lent);
        lent.sample = sample;
        number
    }),
    Fault::asked(NAME, "11 before 16", |lent| {
        swapped(NAME, lent, RULE, QUERY)
    }),
    Fault::asked(NAME, "5 before 11", |lent| swapped(NAME, lent, QUERY, ROOM)),
    Fault::asked(NAME, "6 before 5", |lent| swapped(NAME, lent, ROOM, FORM)),
    Fault::asked(NAME, "129 objects pass", |lent| {
        let objects = lent.state[OBJECTS];
        lent.state[OBJECTS] = objects.min(MOST_OBJECTS as u16);
        let number = ramp(lent);
        lent.state[OBJECTS] = objects;
        number
    }),
    Fault::asked(NAME, "a refusal leaves the answer", |lent| {
        let before = lent.answer;
        let number = ramp(lent);
        if number != 0 {
            lent.answer = before;
        }
        number
    }),
];

fn elapsed(lent: &Lent) -> u32 {
    lent.state[ELAPSED].into()
}

fn duration(lent: &Lent) -> u32 {
    lent.state[DURATION].into()
}

fn sum(lent: &Lent) -> u32 {
    elapsed(lent) + lent.sample
}

fn carries(lent: &Lent) -> bool {
    lent.rule == 2 && duration(lent) > 0
}

/// The call, and a change of its answer where the carried ramp runs.
fn while_carried(lent: &mut Lent, change: fn(&mut Lent)) -> u32 {
    let number = ramp(lent);
    if number == 0 && lent.answer[0] == CARRIED_ROW {
        change(lent);
    }
    number
}

/// Another answer, with its fraction.
fn give(lent: &mut Lent, answer: [u32; RAMP]) {
    lent.answer[..RAMP].copy_from_slice(&answer);
    lent.fraction[0] = (answer[2] as f32 / answer[3] as f32).to_bits();
}

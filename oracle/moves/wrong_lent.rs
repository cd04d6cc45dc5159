//! Calls that change what they are lent to read, or what lies behind what they are lent.

use crate::calls::{Name, PROVED};
use crate::lent::{Lent, RAMP, STATE};
use crate::wrong::Fault;
use oracle::tables::{BLOCKS_LENGTH, RETAINED_LENGTH, START_LENGTH};

pub const FAULTS: [Fault; 17] = [
    Fault::played(Name::Hold, "a retained number changes", |lent| {
        touched(Name::Hold, lent, |lent| {
            lent.tables.retained[RETAINED_LENGTH - 1] ^= 1
        })
    }),
    Fault::played(Name::Hold, "the table ends too late", |lent| {
        touched(Name::Hold, lent, |lent| {
            lent.tables.start[START_LENGTH] ^= 1
        })
    }),
    Fault::played(
        Name::Hold,
        "the number behind the objects changes",
        |lent| touched(Name::Hold, lent, |lent| lent.held[1] ^= 1),
    ),
    Fault::played(Name::Timing, "a timing changes", |lent| {
        touched(Name::Timing, lent, |lent| lent.tables.timings[0] ^= 1)
    }),
    Fault::played(Name::Timing, "a start row changes", |lent| {
        touched(Name::Timing, lent, |lent| lent.tables.start[0] ^= 1)
    }),
    Fault::played(Name::Timing, "a carried row changes", |lent| {
        touched(Name::Timing, lent, |lent| lent.carried[0] ^= 1)
    }),
    Fault::played(
        Name::Timing,
        "the number behind the state changes",
        |lent| touched(Name::Timing, lent, |lent| lent.state[STATE] ^= 1),
    ),
    Fault::played(Name::Ramp, "a timing changes", |lent| {
        touched(Name::Ramp, lent, |lent| lent.tables.timings[0] ^= 1)
    }),
    Fault::played(Name::Ramp, "the state changes", |lent| {
        touched(Name::Ramp, lent, |lent| lent.state[0] ^= 1)
    }),
    Fault::played(Name::Ramp, "the number behind the answer changes", |lent| {
        touched(Name::Ramp, lent, |lent| lent.answer[RAMP] ^= 1)
    }),
    Fault::played(Name::Ramp, "the one behind the fraction changes", |lent| {
        touched(Name::Ramp, lent, |lent| lent.fraction[1] ^= 1)
    }),
    Fault::played(Name::Carry, "a timing changes", |lent| {
        touched(Name::Carry, lent, |lent| lent.tables.timings[0] ^= 1)
    }),
    Fault::played(Name::Carry, "a start row changes", |lent| {
        touched(Name::Carry, lent, |lent| lent.tables.start[0] ^= 1)
    }),
    Fault::played(Name::Carry, "a block's row changes", |lent| {
        touched(Name::Carry, lent, |lent| {
            lent.tables.blocks[BLOCKS_LENGTH - 1] ^= 1
        })
    }),
    Fault::played(Name::Carry, "the number behind the rows changes", |lent| {
        touched(Name::Carry, lent, |lent| lent.carried[START_LENGTH] ^= 1)
    }),
    Fault::played(Name::Carry, "the number behind the state changes", |lent| {
        touched(Name::Carry, lent, |lent| lent.state[STATE] ^= 1)
    }),
    Fault::played(Name::Drop, "the number behind the state changes", |lent| {
        touched(Name::Drop, lent, |lent| lent.state[STATE] ^= 1)
    }),
];

/// The call, and a change behind it.
fn touched(name: Name, lent: &mut Lent, change: fn(&mut Lent)) -> u32 {
    let number = PROVED.make(name, lent);
    change(lent);
    number
}

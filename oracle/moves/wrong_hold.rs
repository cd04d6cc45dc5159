//! Wrong ways to hold rows for a frame without blocks, and to drop what is carried.

use crate::calls::{drop, hold, Name};
use crate::lent::{Lent, DURATION, ELAPSED, OBJECTS};
use crate::model::{FORM, ROOM};
use crate::wrong::{swapped, Fault};
use oracle::form::can_be_shown;
use oracle::tables::{ALL_SETTLED, COUNT, DOUBT, DYNAMIC, KIND, MARK, NONE_SETTLED};
use oracle::tables::{RETAINED_HEAD, ROW_WIDTH};

pub const FAULTS: [Fault; 13] = [
    Fault::played(Name::Hold, "marks are kept in doubt", |lent| {
        marked(lent, 1, |_, retained| retained)
    }),
    Fault::played(Name::Hold, "fixed kinds stay settled in doubt", |lent| {
        marked(lent, 1, |kind, _| match kind {
            DYNAMIC => NONE_SETTLED,
            _ => ALL_SETTLED,
        })
    }),
    Fault::played(Name::Hold, "marks are 0 without doubt", |lent| {
        marked(lent, 0, |_, _| NONE_SETTLED)
    }),
    Fault::played(Name::Hold, "it answers one object fewer", |lent| {
        let number = hold(lent);
        lent.held[0] = lent.held[0].saturating_sub(1);
        number
    }),
    Fault::played(Name::Hold, "the last row is not written", |lent| {
        let before = lent.tables.start.clone();
        let number = hold(lent);
        let last = lent.held[0].saturating_sub(1) as usize * ROW_WIDTH;
        lent.tables.start[last..].copy_from_slice(&before[last..]);
        number
    }),
    Fault::played(Name::Hold, "one row more is written", |lent| {
        let number = hold(lent);
        let mut rows = lent.tables.start.chunks_exact_mut(ROW_WIDTH);
        if let (0, Some(behind)) = (number, rows.nth(lent.held[0] as usize)) {
            behind.fill(0);
        }
        number
    }),
    Fault::asked(Name::Hold, "6 before 5", |lent| {
        swapped(Name::Hold, lent, ROOM, FORM)
    }),
    Fault::asked(Name::Hold, "a fixed kind may have any mark", |lent| {
        let (row, retained) = (RETAINED_HEAD, lent.tables.retained.clone());
        let fixed = retained[COUNT] > 0 && retained[row + KIND] != DYNAMIC;
        if fixed && can_be_shown(&retained[row..row + ROW_WIDTH]) {
            lent.tables.retained[row + MARK] = ALL_SETTLED;
        }
        let number = hold(lent);
        lent.tables.retained = retained;
        number
    }),
    Fault::asked(Name::Hold, "a refusal leaves the answer", |lent| {
        let before = lent.held;
        let number = hold(lent);
        if number != 0 {
            lent.held = before;
        }
        number
    }),
    Fault::played(Name::Drop, "a gap, a reset and a start keep it", |_| 0),
    Fault::played(Name::Drop, "the objects stay", |lent| left(lent, OBJECTS)),
    Fault::played(Name::Drop, "the elapsed samples stay", |lent| {
        left(lent, ELAPSED)
    }),
    Fault::played(Name::Drop, "the duration stays", |lent| {
        left(lent, DURATION)
    }),
];

/// Under this doubt each mark is made of the row's kind and its retained mark.
fn marked(lent: &mut Lent, doubt: i16, mark: fn(i16, i16) -> i16) -> u32 {
    let number = hold(lent);
    let tables = &mut lent.tables;
    if number == 0 && tables.retained[DOUBT] == doubt {
        let retained = tables.retained[RETAINED_HEAD..].chunks(ROW_WIDTH);
        let start = tables.start.chunks_mut(ROW_WIDTH).zip(retained);
        for (row, retained) in start.take(lent.held[0] as usize) {
            row[MARK] = mark(row[KIND], retained[MARK]);
        }
    }
    number
}

/// One number of the state is left as it was.
fn left(lent: &mut Lent, place: usize) -> u32 {
    let before = lent.state[place];
    drop(lent);
    lent.state[place] = before;
    0
}

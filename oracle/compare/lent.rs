//! Calls that are refused before the payload is looked at: 5 Room, 6 Form, 7 Size, and their order.

use crate::bench::Bench;
use crate::difference::Difference;
use crate::proved::{NEEDED, RETAINED, TABLES};
use crate::seen::Seen;
use crate::spoil::Moment;
use oracle::answer::LONGEST_PAYLOAD;
use oracle::call::{Call, CALLS};
use oracle::form::{in_form, other_number};
use oracle::listener::Said;
use oracle::random::Random;
use oracle::tables::{COUNT, MARK, RETAINED_HEAD, ROW_WIDTH};

pub const ROOM: u32 = 5;
pub const FORM: u32 = 6;
const SIZE: u32 = 7;

/// How the lent tables and the payload are spoiled for one call.
#[derive(Clone, Copy)]
struct Trial {
    short: bool,
    out_of_form: bool,
    too_long: bool,
}

impl Trial {
    fn random(random: &mut Random) -> Self {
        Trial {
            short: random.flag(),
            out_of_form: random.flag(),
            too_long: random.once_in(8),
        }
    }

    /// Decode tests 5, 6, 7, in this order.
    fn number(self) -> u32 {
        match self {
            Trial { short: true, .. } => ROOM,
            Trial {
                out_of_form: true, ..
            } => FORM,
            _ => SIZE,
        }
    }

    /// Programme start and reset ask for room alone, and gap for the form too.
    fn is_for(self, call: Call) -> bool {
        self.short || self.out_of_form && call == Call::Gap
    }
}

/// One such try of each call; what is retained is afterwards as before.
pub fn try_one(
    bench: &mut Bench,
    payload: &[u8],
    random: &mut Random,
    seen: &mut Seen,
) -> Result<(), Difference> {
    let mut trial = Trial::random(random);
    let before = bench.found.retained.clone();
    if trial.out_of_form {
        spoil_form(&mut bench.found.retained, random);
        trial.out_of_form = !in_form(&bench.found.retained);
    }
    if trial.short || trial.out_of_form || trial.too_long {
        seen.refused(None, trial.number());
        refused_decode(bench, payload, trial, random)?;
    }
    for call in CALLS.into_iter().filter(|call| trial.is_for(*call)) {
        seen.refused(Some(call), trial.number());
        refused_call(bench, call, trial)?;
    }
    bench.found.retained.copy_from_slice(&before);
    Ok(())
}

fn refused_decode(
    bench: &mut Bench,
    payload: &[u8],
    trial: Trial,
    random: &mut Random,
) -> Result<(), Difference> {
    let mut lent = bench.found.lengths();
    if trial.short {
        let table = random.index(TABLES);
        lent[table] = random.pick(&[NEEDED[table] - 1, 0]);
    }
    let mut payload = payload.to_vec();
    if trial.too_long {
        payload.resize(LONGEST_PAYLOAD + 1, 0);
    }
    bench.prepare();
    let found = bench.found.decode_lent(&payload, lent);
    bench.compare(Moment::Untouched, Said::only(trial.number()), found)
}

fn refused_call(bench: &mut Bench, call: Call, trial: Trial) -> Result<(), Difference> {
    let lent = if trial.short {
        NEEDED[RETAINED] - 1
    } else {
        bench.found.retained.len()
    };
    bench.prepare();
    let found = Said::only(bench.found.call_lent(call, lent));
    bench.compare(Moment::Declined(call), Said::only(trial.number()), found)
}

/// One number that is looked at, often a mark, becomes another.
fn spoil_form(table: &mut [i16], random: &mut Random) {
    let rows = table[COUNT] as usize;
    let index = if rows > 0 && random.once_in(4) {
        RETAINED_HEAD + random.index(rows) * ROW_WIDTH + MARK
    } else {
        random.index(RETAINED_HEAD + rows * ROW_WIDTH)
    };
    table[index] = other_number(random);
}

//! Wrong calls, each made of the proved one: the comparison has to find every one of them.

use crate::calls::{Calls, Function, Name, PROVED};
use crate::lent::{Lent, CARRIED};
use crate::model::{reasons, FORM, QUERY, ROOM, RULE};
use crate::{wrong_carry, wrong_hold, wrong_lent, wrong_ramp, wrong_timing};

pub struct Fault {
    pub name: Name,
    /// What is wrong.
    pub phrase: &'static str,
    /// Whether a programme shows it. Drawn calls show every fault.
    pub in_programmes: bool,
    function: Function,
}

impl Fault {
    /// One that programmes show.
    pub const fn played(name: Name, phrase: &'static str, function: Function) -> Self {
        Fault {
            name,
            phrase,
            in_programmes: true,
            function,
        }
    }

    /// One that no programme meets, since a rack asks for nothing of the sort.
    pub const fn asked(name: Name, phrase: &'static str, function: Function) -> Self {
        Fault {
            name,
            phrase,
            in_programmes: false,
            function,
        }
    }

    pub fn all() -> Vec<Fault> {
        let mut all = Vec::from(wrong_hold::FAULTS);
        all.extend(wrong_timing::TESTS);
        all.extend(wrong_timing::STATES);
        all.extend(wrong_timing::REFUSALS);
        all.extend(wrong_ramp::FAULTS);
        all.extend(wrong_carry::STATES);
        all.extend(wrong_carry::ROWS);
        all.extend(wrong_carry::REFUSALS);
        all.extend(wrong_lent::FAULTS);
        all
    }

    /// The proved calls, and this one among them.
    pub fn planted(&self) -> Calls {
        PROVED.with(self.name, self.function)
    }
}

/// Whether the call is refused before it looks at the timings.
pub fn is_refused(number: u32) -> bool {
    [RULE, QUERY, ROOM, FORM].contains(&number)
}

/// The call with a later refusal in place of the right one, where there is a reason for both.
pub fn swapped(name: Name, lent: &mut Lent, right: u32, later: u32) -> u32 {
    let both = reasons(name, lent).contains(&later);
    match PROVED.make(name, lent) {
        number if number == right && both => later,
        number => number,
    }
}

/// The call, behind which the state is as before where what was lent and the number say so.
pub fn kept(name: Name, lent: &mut Lent, stays: fn(&Lent, u32) -> bool) -> u32 {
    let before = lent.clone();
    let number = PROVED.make(name, lent);
    if stays(&before, number) {
        lent.state = before.state;
    }
    number
}

/// The call with the carried table lent in its whole length.
pub fn with_room(name: Name, lent: &mut Lent) -> u32 {
    let lengths = lent.lengths;
    lent.lengths[CARRIED] = lent.carried.len();
    let number = PROVED.make(name, lent);
    lent.lengths = lengths;
    number
}

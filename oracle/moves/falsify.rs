//! Shows that the comparison can fail: wrong calls are found, and the right ones are not.

use crate::calls::{Calls, PROVED};
use crate::drawn_calls::DrawnCalls;
use crate::model::BY_WORDS;
use crate::programmes::Programmes;
use crate::wrong::Fault;

/// Enough for each fault to show.
const PROGRAMMES: usize = 3_000;
const CALLS: usize = 30_000;

/// Which programme and which drawn call was the first to differ.
struct Found {
    programme: Option<usize>,
    call: Option<usize>,
}

impl Found {
    fn of(seed: u64, calls: Calls) -> Self {
        let mut programmes = Programmes::new(seed, calls);
        let mut drawn = DrawnCalls::new(seed, calls);
        Found {
            programme: (1..=PROGRAMMES).find(|_| programmes.programme().is_err()),
            call: (1..=CALLS).find(|_| drawn.case().is_err()),
        }
    }

    fn nothing(&self) -> bool {
        self.programme.is_none() && self.call.is_none()
    }
}

pub fn falsify(seed: u64) -> bool {
    let mut good = passes(seed, "the proved calls", PROVED);
    // The models agree with the simulation, too.
    good &= passes(seed, "the models of the calls", BY_WORDS);
    let faults = Fault::all();
    let found = faults.iter().filter(|fault| is_found(seed, fault)).count();
    println!("wrong calls: {}, of these found {found}", faults.len());
    good && found == faults.len()
}

fn passes(seed: u64, what: &str, calls: Calls) -> bool {
    let good = Found::of(seed, calls).nothing();
    let verdict = if good { "no" } else { "A" };
    println!("{what}: {PROGRAMMES} programmes, {CALLS} drawn calls, {verdict} difference");
    good
}

/// Drawn calls have to show it, and programmes where they meet it, and only there.
fn is_found(seed: u64, fault: &Fault) -> bool {
    let Found { programme, call } = Found::of(seed, fault.planted());
    let good = call.is_some() && programme.is_some() == fault.in_programmes;
    let told = |what: &str, first: Option<usize>| {
        first.map_or(String::new(), |first| format!(" {what} {first}"))
    };
    let verdict = if good { "found by" } else { "JUDGED WRONGLY:" };
    println!(
        "{:?}, {}: {verdict}{}{}",
        fault.name,
        fault.phrase,
        told("programme", programme),
        told("call", call)
    );
    good
}

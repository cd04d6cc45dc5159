//! Counts the oracle's answers to generated payloads, by number and context.

use oracle::aim::aims;
use oracle::answer::{Oracle, SIZE};
use oracle::context;
use oracle::generator::{Generator, Options};
use oracle::journal::Record;
use oracle::random::Random;
use std::collections::{BTreeMap, BTreeSet};
use std::io::{self, Write};

type Pair = (u8, u8);

pub fn count(seed: u64, payloads: usize, out: &mut impl Write) -> io::Result<()> {
    let reachable: BTreeSet<Pair> = aims().iter().map(|aim| (aim.number, aim.context)).collect();
    let missed = missed_aims(seed);
    let (accepted, refused) = answers(seed, payloads);
    for (&(number, context), times) in &refused {
        let text = if context == 0 {
            ""
        } else {
            context::string(context)
        };
        writeln!(out, "{times:8} no {number} {context} {text}")?;
    }
    let unseen: Vec<&Pair> = reachable
        .iter()
        .filter(|pair| !refused.contains_key(pair))
        .collect();
    let known = |pair: &Pair| reachable.contains(pair) || *pair == (SIZE, 0);
    let unexpected: Vec<&Pair> = refused.keys().filter(|pair| !known(pair)).collect();
    let share = accepted * 100 / payloads.max(1);
    writeln!(out, "{accepted:8} ok, {share} % of {payloads} payloads")?;
    writeln!(
        out,
        "{} reachable pairs, unseen {unseen:?}, unexpected {unexpected:?}",
        reachable.len()
    )?;
    writeln!(out, "missed aims {missed:?}")?;
    if !unseen.is_empty() || !unexpected.is_empty() || !missed.is_empty() {
        return Err(io::Error::other(
            "the generator and the list of reachable pairs disagree",
        ));
    }
    Ok(())
}

fn answers(seed: u64, payloads: usize) -> (usize, BTreeMap<Pair, usize>) {
    let mut oracle = Oracle::default();
    let mut accepted = 0;
    let mut refused = BTreeMap::new();
    let mut generator = Generator::new(seed, Options::default());
    for record in (0..payloads).flat_map(|_| generator.next_records()) {
        match record {
            Record::Call(call) => oracle.call(call),
            Record::Payload(payload) => match oracle.decode(&payload) {
                Ok(_) => accepted += 1,
                Err(refusal) => {
                    *refused
                        .entry((refusal.number, refusal.context))
                        .or_default() += 1
                }
            },
        }
    }
    (accepted, refused)
}

/// Aims whose payload got another answer, in a few rounds of all aims.
fn missed_aims(seed: u64) -> BTreeSet<Pair> {
    let mut random = Random::new(seed);
    let mut missed = BTreeSet::new();
    for aim in (0..10).flat_map(|_| aims()) {
        let pair = (aim.number, aim.context);
        let answer = Oracle::default().decode(&aim.payload(&mut random));
        if !answer.is_err_and(|refusal| (refusal.number, refusal.context) == pair) {
            missed.insert(pair);
        }
    }
    missed
}

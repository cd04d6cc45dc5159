//! Sequences of payloads and of calls on the retained table, given to both decoders.

use crate::appended::Appended;
use crate::bench::Bench;
use crate::difference::Difference;
use crate::events::{drawn, Event};
use crate::heard_all::HeardAll;
use crate::lent;
use crate::mark_rule::MarkRule;
use crate::seen;
use crate::tally::Tally;
use oracle::answer::{Oracle, TRUNCATED};
use oracle::call::Call;
use oracle::form::random_table;
use oracle::generator::{Generator, Options};
use oracle::journal::Record;
use oracle::listener::{Expected, Listener};
use oracle::random::Random;
use oracle::tables::{DOUBT, RETAINED_LENGTH};

/// What a sequence has besides payloads.
#[derive(Clone, Copy, PartialEq, Eq)]
enum Sort {
    Undisturbed,
    /// Gap notices, resets and programme starts between payloads.
    Disturbed,
    /// The events of demand 3, beside a decoder that hears all.
    BesideAll,
}

const SORTS: [Sort; 3] = [Sort::Undisturbed, Sort::Disturbed, Sort::BesideAll];

pub struct Run {
    pub bench: Bench,
    pub all: HeardAll,
    pub appended: Appended,
    pub mark_rule: MarkRule,
    pub tally: Tally,
    generator: Generator,
    random: Random,
    sort: Sort,
    /// Whether the last sequence ended with a difference, so that its table is of no use.
    out_of_step: bool,
}

impl Run {
    pub fn new(seed: u64, listener: Listener) -> Self {
        Run {
            bench: Bench::new(listener),
            all: HeardAll::default(),
            appended: Appended::new(seed),
            mark_rule: MarkRule::default(),
            tally: Tally::default(),
            generator: Generator::new(seed, Options::default()),
            random: Random::new(!seed),
            sort: Sort::Undisturbed,
            out_of_step: false,
        }
    }

    /// One sequence. Where a difference is found, the rest of it is left out.
    pub fn sequence(&mut self) -> Result<(), (Difference, Vec<u8>)> {
        let records = self.generator.next_sequence();
        let payloads = records.into_iter().filter_map(|record| match record {
            Record::Payload(payload) => Some(payload),
            _ => None,
        });
        let payloads: Vec<Vec<u8>> = payloads.collect();
        self.sort = self.random.pick(&SORTS);
        let mut done = self
            .begin(&payloads)
            .map_err(|difference| (difference, Vec::new()));
        for payload in &payloads {
            done = done.and_then(|()| {
                let said = self.payload(payload);
                said.map_err(|difference| (difference, payload.clone()))
            });
        }
        self.out_of_step = done.is_err();
        self.tally.differences += u64::from(done.is_err());
        done
    }

    /// Mostly a programme start, sometimes a reset; else the table that was left, zeros, or any in form.
    fn begin(&mut self, payloads: &[Vec<u8>]) -> Result<(), Difference> {
        match self.random.below(16) {
            _ if self.sort == Sort::BesideAll => {
                self.all.follow(Event::Starts);
                self.renew(Call::Start, seen::START)
            }
            0 | 1 if !self.out_of_step => self.go_on(seen::LEFT),
            2 => {
                self.bench.plant(&[0; RETAINED_LENGTH]);
                self.go_on(seen::ZEROS)
            }
            3..=5 => {
                self.plant(payloads);
                self.go_on(seen::PLANTED)
            }
            6..=8 => self.renew(Call::Reset, seen::RESET),
            _ => self.renew(Call::Start, seen::START),
        }
    }

    fn go_on(&mut self, head: &'static str) -> Result<(), Difference> {
        self.tally.seen.begin(head);
        Ok(())
    }

    /// A programme start and a reset look at no number.
    fn renew(&mut self, call: Call, head: &'static str) -> Result<(), Difference> {
        self.tally.seen.begin(head);
        if self.random.once_in(4) {
            self.tally.seen.count(seen::ANY_NUMBERS);
            let retained = self.bench.found.retained[..RETAINED_LENGTH].iter_mut();
            retained.for_each(|number| *number = self.random.next() as i16);
        }
        self.call_both(call)
    }

    /// Mostly with the kinds of the first payload that has any, since only then do the rows matter.
    fn plant(&mut self, payloads: &[Vec<u8>]) {
        let mut frames = payloads
            .iter()
            .filter_map(|payload| Oracle::default().decode(payload).ok());
        let kinds = frames.next().map(|frame| frame.kinds);
        let kinds = kinds
            .filter(|_| !self.random.once_in(4))
            .unwrap_or_else(|| {
                let count = self.random.below(6);
                (0..count).map(|_| self.random.below(4) as i16).collect()
            });
        self.bench.plant(&random_table(&mut self.random, &kinds));
    }

    fn payload(&mut self, payload: &[u8]) -> Result<(), Difference> {
        if self.sort == Sort::BesideAll {
            for event in drawn(&mut self.random, self.all.following) {
                self.event(event, payload)?;
            }
        } else {
            if self.sort == Sort::Disturbed && self.random.once_in(4) {
                self.call_between()?;
            }
            self.decode(payload)?;
        }
        if self.random.once_in(16) {
            let seen = &mut self.tally.seen;
            lent::try_one(&mut self.bench, payload, &mut self.random, seen)?;
        }
        Ok(())
    }

    fn call_between(&mut self) -> Result<(), Difference> {
        let calls = [Call::Gap, Call::Gap, Call::Reset, Call::Reset, Call::Start];
        let call = self.random.pick(&calls);
        self.tally.seen.call(call);
        self.bench.call(call)
    }

    fn decode(&mut self, payload: &[u8]) -> Result<Expected, Difference> {
        let expected = self.bench.decode(payload)?;
        self.tally.count(&expected);
        let said = &expected.said;
        if said.number == 0 {
            let bench = &self.bench;
            self.mark_rule.check(said, &bench.found, bench.warned)?;
        } else if said.number == u32::from(TRUNCATED) {
            let seen = &mut self.tally.seen;
            self.appended.check(payload, said, seen)?;
        }
        Ok(expected)
    }

    fn event(&mut self, event: Event, payload: &[u8]) -> Result<(), Difference> {
        self.tally.seen.event(event, self.all.following);
        match event {
            Event::Starts => self.call_both(Call::Start)?,
            Event::Heard => self.heard(payload)?,
            Event::Missed => self.all.hear(payload),
            Event::Warns(call) => self.bench.call(call)?,
            Event::WarnsBoth(call) => self.call_both(call)?,
        }
        self.all.follow(event);
        Ok(())
    }

    fn call_both(&mut self, call: Call) -> Result<(), Difference> {
        self.all.call(call);
        self.bench.call(call)
    }

    fn heard(&mut self, payload: &[u8]) -> Result<(), Difference> {
        let doubted = self.bench.found.retained[DOUBT] == 1;
        let said = self.decode(payload)?.said;
        let accepted = said.number == 0;
        let sort = if accepted {
            seen::FRAMES
        } else {
            seen::REFUSALS
        };
        self.tally.seen.count(sort);
        self.all.compare(payload, &said, &self.bench.found, doubted)
    }
}

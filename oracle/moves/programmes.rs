//! One programme after another, made or of payloads, as a seed decides.

use crate::calls::Calls;
use crate::difference::Difference;
use crate::drawn;
use crate::rack::{Heard, Rack};
use crate::seen::{self, Seen};
use crate::stage::{Source, Stage};
use crate::timeline::{same_kinds, unsettled, Picture};
use oracle::answer::LONGEST_PAYLOAD;
use oracle::call::Call;
use oracle::generator::{Generator, Options};
use oracle::journal::Record;
use oracle::random::Random;
use oracle::tables::FRAME_LENGTH;

/// No programme has more frames: enough for the longest move, which runs over 43 edges.
const MOST_FRAMES: u32 = 64;

pub struct Programmes {
    random: Random,
    generator: Generator,
    rack: Rack,
    pub seen: Seen,
}

/// What a programme leans to.
struct Manner {
    frames: u32,
    /// The larger it is, the more seldom is a long move disturbed.
    patience: u32,
    /// Whether the programme goes on until no move is under way.
    to_the_end: bool,
    /// Frames under rule 1 in so many; 0 for none.
    rule_one_in: u32,
}

impl Manner {
    fn random(random: &mut Random) -> Self {
        Manner {
            frames: random.between(2, 10),
            patience: random.pick(&[1, 4, 1_000, 1_000]),
            to_the_end: random.flag(),
            rule_one_in: random.pick(&[0, 0, 0, 0, 6, 6, 6, 1]),
        }
    }
}

impl Programmes {
    pub fn new(seed: u64, calls: Calls) -> Self {
        let options = Options {
            warnings: false,
            short: true,
        };
        Programmes {
            random: Random::new(seed),
            generator: Generator::new(!seed, options),
            rack: Rack::new(calls),
            seen: Seen::default(),
        }
    }

    /// The next programme. Where a difference is found, the rest of it is left out.
    pub fn programme(&mut self) -> Result<(), Difference> {
        self.seen.programmes += 1;
        let of_payloads = self.random.once_in(4);
        let mut programme = Programme {
            manner: Manner::random(&mut self.random),
            stage: Stage::new(&mut self.rack, &mut self.seen, &mut self.random),
        };
        let started = programme.stage.call(Call::Start);
        let done = started.and_then(|()| match of_payloads {
            true => programme.of_payloads(&mut self.generator),
            false => programme.made(),
        });
        if done.is_err() {
            self.rack = Rack::new(self.rack.calls);
        }
        done
    }
}

struct Programme<'a> {
    stage: Stage<'a>,
    manner: Manner,
}

impl Programme<'_> {
    /// Frames that are written as a decoder would have.
    fn made(&mut self) -> Result<(), Difference> {
        let mut kinds = drawn::kinds(self.stage.random);
        let mut frames = 0;
        while frames < self.manner.frames || self.lingers(frames) {
            frames += 1;
            if self.is_silent() {
                self.frame_without_payload()?;
            } else {
                self.made_frame(&mut kinds)?;
            }
        }
        self.frame_without_payload()
    }

    /// Whether the programme goes on, since a move is under way.
    fn lingers(&self, frames: u32) -> bool {
        self.manner.to_the_end && frames < MOST_FRAMES && self.stage.end() > 0
    }

    fn made_frame(&mut self, kinds: &mut Vec<i16>) -> Result<(), Difference> {
        self.call_between()?;
        let rule = self.turn();
        if self.happens(8) {
            *kinds = drawn::changed(self.stage.random, kinds);
        }
        let heard = self.heard(rule, kinds);
        self.stage.rack.write(&heard);
        self.stage.frame(rule, Some(heard), Source::Made)
    }

    /// A sequence of payloads, accepted and refused, with frames that have none.
    fn of_payloads(&mut self, generator: &mut Generator) -> Result<(), Difference> {
        for record in generator.next_sequence() {
            let Record::Payload(payload) = record else {
                continue;
            };
            while self.stage.random.once_in(4) {
                self.frame_without_payload()?;
            }
            self.frame_of(payload)?;
        }
        self.frame_without_payload()
    }

    fn frame_of(&mut self, mut payload: Vec<u8>) -> Result<(), Difference> {
        self.call_between()?;
        let rule = self.turn();
        if self.stage.random.once_in(64) {
            self.stage.seen.count(seen::OVERSIZED);
            payload.resize(LONGEST_PAYLOAD + 1, 0);
        }
        let heard = self.stage.rack.decode(&payload);
        let (name, source) = match heard {
            Some(_) => (seen::ACCEPTED, Source::Accepted),
            None => (seen::REFUSED, Source::Refused),
        };
        self.stage.seen.count(name);
        self.stage.frame(rule, heard, source)
    }

    fn frame_without_payload(&mut self) -> Result<(), Difference> {
        self.call_between()?;
        let rule = self.turn();
        self.stage.frame(rule, None, Source::Absent)
    }

    /// True once in so many frames; if a long move is under way, more seldom.
    fn happens(&mut self, once_in: u32) -> bool {
        let long = self.stage.end() > FRAME_LENGTH;
        let patience = if long { self.manner.patience } else { 1 };
        self.stage.random.once_in(once_in * patience)
    }

    fn call_between(&mut self) -> Result<(), Difference> {
        if !self.happens(12) {
            return Ok(());
        }
        let calls = [Call::Gap, Call::Gap, Call::Reset, Call::Start];
        let call = self.stage.random.pick(&calls);
        self.stage.call(call)
    }

    /// A new frame. Answers its rule.
    fn turn(&mut self) -> u32 {
        let once_in = self.manner.rule_one_in;
        let one = once_in == 1 || once_in > 1 && self.happens(once_in);
        let rule = if one { 1 } else { 2 };
        self.stage.rack.turn(rule);
        rule
    }

    /// Whether a frame has no blocks: mostly while a long move is under way.
    fn is_silent(&mut self) -> bool {
        if self.stage.end() > FRAME_LENGTH {
            return !self.happens(2);
        }
        self.stage.random.once_in(3)
    }

    fn heard(&mut self, rule: u32, kinds: &[i16]) -> Heard {
        let end = self.stage.end();
        let start = self.start_rows(kinds);
        let random = &mut *self.stage.random;
        let timings = drawn::timings(random, rule, end);
        let blocks = timings.iter().map(|_| drawn::picture(random, kinds));
        Heard {
            start,
            blocks: blocks.collect(),
            timings,
        }
    }

    /// As retained, where the kinds are the same. Else any: the calls look at their kinds alone.
    fn start_rows(&mut self, kinds: &[i16]) -> Picture {
        let rows = drawn::picture(self.stage.random, kinds);
        let target = self.stage.target();
        if same_kinds(&rows, &target) {
            return target;
        }
        if self.stage.rack.doubts() {
            return unsettled(&rows);
        }
        rows
    }
}

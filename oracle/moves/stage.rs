//! A rack and the simulation side by side: each frame and each call goes to both.

use crate::difference::{number, Difference};
use crate::notes;
use crate::rack::{Heard, Rack};
use crate::seen::{self, Seen};
use crate::timeline::{same_kinds, unsettled, Picture, Timeline};
use oracle::call::Call;
use oracle::random::Random;
use oracle::tables::FRAME_LENGTH;
use oracle::timing::timing_number;

const FRAME: u64 = FRAME_LENGTH as u64;
/// Further samples of each frame.
const DRAWN: usize = 3;

/// What a frame comes from.
#[derive(Clone, Copy, PartialEq, Eq)]
pub enum Source {
    Made,
    Accepted,
    Refused,
    Absent,
}

pub struct Stage<'a> {
    pub rack: &'a mut Rack,
    pub seen: &'a mut Seen,
    pub random: &'a mut Random,
    timeline: Timeline,
    /// The absolute time of the frame's first sample.
    edge: u64,
    /// Frames without blocks in a row, with a move under way.
    silent: u64,
}

impl<'a> Stage<'a> {
    pub fn new(rack: &'a mut Rack, seen: &'a mut Seen, random: &'a mut Random) -> Self {
        Stage {
            rack,
            seen,
            random,
            timeline: Timeline::new(),
            edge: 0,
            silent: 0,
        }
    }

    /// How far behind the edge a move under way ends; 0 if there is none.
    pub fn end(&self) -> u32 {
        let thing = self.timeline.under_way(self.edge);
        thing.map_or(0, |thing| (thing.end() - self.edge) as u32)
    }

    /// How the objects stand, or will.
    pub fn target(&self) -> Picture {
        self.timeline.target()
    }

    pub fn call(&mut self, call: Call) -> Result<(), Difference> {
        let (name, picture) = match call {
            Call::Gap => (seen::GAP, unsettled(&self.target())),
            Call::Reset => (seen::RESET, Picture::default()),
            Call::Start => (seen::PROGRAMME_START, Picture::default()),
        };
        self.drop_move(name);
        self.timeline.stand(self.edge, picture);
        self.rack.call(call)
    }

    /// A move that is under way is dropped at its target.
    fn drop_move(&mut self, name: &'static str) {
        if self.timeline.under_way(self.edge).is_some() {
            self.seen.count(name);
        }
        self.timeline.drop(self.edge);
    }

    /// One frame under a rule: with the blocks that were heard, or without any.
    pub fn frame(
        &mut self,
        rule: u32,
        heard: Option<Heard>,
        source: Source,
    ) -> Result<(), Difference> {
        let done = self.played(rule, heard, source);
        let frame = self.edge / FRAME;
        self.seen.frames += 1;
        self.edge += FRAME;
        done.map_err(|difference| difference.within(&format!("frame {frame}, rule {rule}")))
    }

    fn played(
        &mut self,
        rule: u32,
        heard: Option<Heard>,
        source: Source,
    ) -> Result<(), Difference> {
        let heard = self.entered(heard)?;
        let number = self.tested(rule, &heard.timings);
        self.rack.timing(number, self.timeline.state(self.edge))?;
        if number != 0 {
            return self.refused(&heard);
        }
        self.note_edge(source);
        self.passed(&heard)?;
        self.carried(source)
    }

    /// The start rows, from which the simulation learns of other kinds.
    fn entered(&mut self, heard: Option<Heard>) -> Result<Heard, Difference> {
        let target = self.target();
        let Some(heard) = heard else {
            let doubt = self.rack.doubts();
            self.seen.count(notes::of_held(&target, doubt));
            self.rack.hold(&target)?;
            return Ok(Heard {
                start: target,
                timings: Vec::new(),
                blocks: Vec::new(),
            });
        };
        if same_kinds(&heard.start, &target) {
            number("start rows as retained", true, heard.start == target)?;
        } else {
            if self.end() > 0 {
                self.seen.count_all(notes::of_kinds(&heard.start, &target));
            }
            self.timeline.stand(self.edge, heard.start.clone());
        }
        Ok(heard)
    }

    /// What the timing test has to say. A frame under rule 1 drops a move, and so does a refusal.
    fn tested(&mut self, rule: u32, timings: &[[u16; 2]]) -> u32 {
        let number = if rule == 1 {
            self.drop_move(match timings {
                [] => seen::RULE_ONE_WITHOUT,
                _ => seen::RULE_ONE,
            });
            timing_number(timings).into()
        } else {
            self.tested_by_two(timings)
        };
        self.seen.timing(rule, number);
        if number != 0 {
            self.drop_move(Seen::refusal(number));
        }
        number
    }

    fn tested_by_two(&mut self, timings: &[[u16; 2]]) -> u32 {
        if let (true, Some(&[first, _])) = (self.end() > 0, timings.first()) {
            let names = notes::of_first(first.into(), self.end());
            self.seen.count_all(names);
        }
        let number = |blocks: usize| self.timeline.number(self.edge, &timings[..blocks]);
        let refused = (1..=timings.len()).find(|&blocks| number(blocks) != 0);
        let number = number(timings.len());
        if let Some(blocks) = refused {
            let names = notes::of_refusal(number, &timings[..blocks]);
            self.seen.count_all(names);
        }
        number
    }

    /// The frame's blocks are not played, and yet retained: the next frame begins with the last.
    fn refused(&mut self, heard: &Heard) -> Result<(), Difference> {
        self.silent = 0;
        let first = u32::from(heard.timings[0][0]);
        let samples = self.samples();
        self.ask(samples.into_iter().filter(|sample| *sample < first))?;
        let last = heard.blocks.last().expect("a refused frame has blocks");
        self.timeline.stand(self.edge + FRAME, last.clone());
        Ok(())
    }

    fn passed(&mut self, heard: &Heard) -> Result<(), Difference> {
        for (&[start, ramp], rows) in heard.timings.iter().zip(&heard.blocks) {
            let names = notes::of_move(start.into(), ramp.into());
            self.seen.count_all(names);
            let at = self.edge + u64::from(start);
            self.timeline.go(at, ramp.into(), rows.clone());
        }
        let samples = self.samples();
        self.ask(samples)
    }

    /// The first two samples and the last, those where something begins or ends, and drawn ones.
    fn samples(&mut self) -> Vec<u32> {
        let frame = self.edge..self.edge + FRAME;
        let times = self.timeline.times().filter(|time| frame.contains(time));
        let mut samples: Vec<u32> = times.map(|time| (time - self.edge) as u32).collect();
        samples.extend([0, 1, FRAME_LENGTH - 1]);
        samples.extend((0..DRAWN).map(|_| self.random.below(FRAME_LENGTH)));
        samples.sort_unstable();
        samples.dedup();
        samples
    }

    fn ask(&mut self, samples: impl IntoIterator<Item = u32>) -> Result<(), Difference> {
        for sample in samples {
            self.seen.samples += 1;
            let place = self.timeline.at(self.edge + u64::from(sample));
            self.rack.ramp(sample, &place)?;
        }
        Ok(())
    }

    /// Counts what is under way at the edge of a frame that passes.
    fn note_edge(&mut self, source: Source) {
        let blocks = matches!(source, Source::Made | Source::Accepted);
        let Some(thing) = self.timeline.under_way(self.edge) else {
            self.silent = 0;
            return;
        };
        let names = notes::of_carried(thing, self.edge, source);
        self.seen.count_all(names);
        self.silent = if blocks { 0 } else { self.silent + 1 };
        match self.silent {
            2 => self.seen.count(seen::IN_A_ROW),
            5 => self.seen.count(seen::FIVE_IN_A_ROW),
            _ => {}
        }
    }

    fn carried(&mut self, source: Source) -> Result<(), Difference> {
        let next = self.edge + FRAME;
        let moves = self.timeline.under_way(next).is_some();
        let place = self.timeline.at(next);
        let from = moves.then_some(place.from);
        if source == Source::Accepted && moves {
            self.seen.count_all(notes::of_rows(place.from));
        }
        self.rack.carry(self.timeline.state(next), from)
    }
}

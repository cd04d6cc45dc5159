//! The simulation: a programme as a list of things on one line of absolute time.
//!
//! A move takes the picture to another one in so many samples, from the one that stood before it. What drops a
//! move has no duration: from then on a picture stands. The list is in the order of time, and of two things at
//! one time the later in the list holds. Nothing here knows of frames, but that a start may lie too far behind
//! the edge of its own.

use oracle::tables::{FRAME_LENGTH, KIND, MARK, NONE_SETTLED, ROW_WIDTH};
use std::rc::Rc;

/// The rows of all objects, number by number.
pub type Picture = Rc<[i16]>;

pub fn objects(picture: &[i16]) -> usize {
    picture.len() / ROW_WIDTH
}

pub fn same_kinds(one: &[i16], other: &[i16]) -> bool {
    let kinds = |picture| <[i16]>::chunks(picture, ROW_WIDTH).map(|row| row[KIND]);
    kinds(one).eq(kinds(other))
}

/// The same with every mark 0.
pub fn unsettled(picture: &[i16]) -> Picture {
    let mut numbers = picture.to_vec();
    let rows = numbers.chunks_mut(ROW_WIDTH);
    rows.for_each(|row| row[MARK] = NONE_SETTLED);
    numbers.into()
}

/// A move, or what drops one.
pub struct Thing {
    pub at: u64,
    pub duration: u64,
    pub to: Picture,
}

impl Thing {
    pub fn end(&self) -> u64 {
        self.at + self.duration
    }

    /// How many frame edges lie within it.
    pub fn edges(&self) -> u64 {
        let frame = u64::from(FRAME_LENGTH);
        self.end().saturating_sub(1) / frame - self.at / frame
    }
}

/// Between which pictures a sample lies. A picture that stands is both, and has 1/1.
pub struct Place<'a> {
    pub from: &'a Picture,
    pub to: &'a Picture,
    pub elapsed: u64,
    pub duration: u64,
}

pub struct Timeline {
    things: Vec<Thing>,
}

impl Timeline {
    /// A programme starts: there is no object.
    pub fn new() -> Self {
        let nothing = Thing {
            at: 0,
            duration: 0,
            to: Rc::default(),
        };
        Timeline {
            things: vec![nothing],
        }
    }

    pub fn go(&mut self, at: u64, duration: u64, to: Picture) {
        assert!(at >= self.last().at, "things come in the order of time");
        self.things.push(Thing { at, duration, to });
    }

    /// From then on this picture stands.
    pub fn stand(&mut self, at: u64, picture: Picture) {
        self.go(at, 0, picture);
    }

    /// What is under way stands at its target.
    pub fn drop(&mut self, at: u64) {
        self.stand(at, self.target());
    }

    fn last(&self) -> &Thing {
        self.things.last().expect("a programme starts with a thing")
    }

    /// Where the last thing leads to.
    pub fn target(&self) -> Picture {
        self.last().to.clone()
    }

    pub fn at(&self, time: u64) -> Place<'_> {
        let begun = self.things.partition_point(|thing| thing.at <= time);
        let Thing { at, duration, to } = &self.things[begun - 1];
        if time - at < *duration {
            let before = &self.things[begun - 2];
            return Place {
                from: &before.to,
                to,
                elapsed: time - at,
                duration: *duration,
            };
        }
        Place {
            from: to,
            to,
            elapsed: 1,
            duration: 1,
        }
    }

    /// The last move, if it has begun by then and has not ended.
    pub fn under_way(&self, time: u64) -> Option<&Thing> {
        let last = self.last();
        (last.at <= time && time < last.end()).then_some(last)
    }

    /// The objects of the move under way, what has elapsed of it, and its duration; or nothing.
    pub fn state(&self, time: u64) -> [u16; 3] {
        self.under_way(time).map_or([0; 3], |thing| {
            let small = |number| u16::try_from(number).expect("a state has 16 bits");
            let elapsed = small(time - thing.at);
            [objects(&thing.to) as u16, elapsed, small(thing.duration)]
        })
    }

    /// What rule 2 says to blocks, each a start and a ramp behind an edge: 0, 8, 9 or 10.
    pub fn number(&self, edge: u64, blocks: &[[u16; 2]]) -> u32 {
        if blocks.windows(2).any(|pair| pair[1][0] < pair[0][0]) {
            return 8;
        }
        let mut end_before = self.last().end();
        for [start, ramp] in blocks.iter().map(|block| block.map(u64::from)) {
            if edge + start < end_before {
                return 9;
            }
            if start > u64::from(FRAME_LENGTH) {
                return 10;
            }
            end_before = edge + start + ramp;
        }
        0
    }

    /// The samples at which something begins or ends, and those beside them.
    pub fn times(&self) -> impl Iterator<Item = u64> + '_ {
        self.things.iter().flat_map(|thing| {
            let end = thing.end();
            [
                thing.at.saturating_sub(1),
                thing.at,
                end.saturating_sub(1),
                end,
                end + 1,
            ]
        })
    }
}

//! How often each event was seen. A run that lacks one of them shows too little.

use std::collections::BTreeMap;

pub const NO_DURATION: &str = "of no duration";
pub const SHORT: &str = "of 1 to 10 samples";
pub const WITHIN: &str = "that end within their frame";
pub const BEFORE_EDGE: &str = "that end one sample before the edge of a frame";
pub const AT_EDGE: &str = "that end at it";
pub const BEHIND_EDGE: &str = "that end one sample behind it";
pub const AT_FIRST_EDGE: &str = "that end at 1,536 of their frame";
pub const LONGEST: &str = "of 65,535 samples";
pub const START_AT_EDGE: &str = "that start at 1,536 and have a duration";
pub const START_AND_END: &str = "that start at 1,536 and have none";
const MOVES: [&str; 10] = [
    NO_DURATION,
    SHORT,
    WITHIN,
    BEFORE_EDGE,
    AT_EDGE,
    BEHIND_EDGE,
    AT_FIRST_EDGE,
    LONGEST,
    START_AT_EDGE,
    START_AND_END,
];

pub const OVER_NONE: &str = "over no edge";
pub const OVER_ONE: &str = "over one edge";
pub const OVER_FIVE: &str = "over two to five edges";
pub const OVER_MANY: &str = "over 6 to 41 edges";
pub const OVER_MOST: &str = "over 42 or 43 edges";
const REACHED: [&str; 5] = [OVER_NONE, OVER_ONE, OVER_FIVE, OVER_MANY, OVER_MOST];

pub const BY_BLOCKS: &str = "frames with blocks";
pub const NO_PAYLOAD: &str = "frames without a payload";
pub const REFUSED_PAYLOAD: &str = "frames whose payload is refused";
pub const IN_A_ROW: &str = "two frames without blocks in a row";
pub const FIVE_IN_A_ROW: &str = "five in a row";
const CARRIED: [&str; 5] = [
    BY_BLOCKS,
    NO_PAYLOAD,
    REFUSED_PAYLOAD,
    IN_A_ROW,
    FIVE_IN_A_ROW,
];

pub const NO_OBJECTS: &str = "no object";
pub const FEW_OBJECTS: &str = "1 to 8 objects";
pub const MANY_OBJECTS: &str = "9 to 127 objects";
pub const ALL_OBJECTS: &str = "128 objects";
const COUNTS: [&str; 4] = [NO_OBJECTS, FEW_OBJECTS, MANY_OBJECTS, ALL_OBJECTS];

pub const FIRST_AT: &str = "at what remains";
pub const FIRST_ABOVE: &str = "above it";
pub const FIRST_ONE_BELOW: &str = "one below it";
pub const FIRST_BELOW: &str = "further below it";
pub const FIRST_IN_LONG: &str = "while a frame or more remains";
const FIRST: [&str; 5] = [
    FIRST_AT,
    FIRST_ABOVE,
    FIRST_ONE_BELOW,
    FIRST_BELOW,
    FIRST_IN_LONG,
];

pub const GAP: &str = "a gap notice";
pub const RESET: &str = "a reset";
pub const PROGRAMME_START: &str = "a programme start";
pub const OTHER_KINDS: &str = "other kinds";
pub const OTHER_COUNT: &str = "another count of objects";
pub const MORE_OR_FEWER: &str = "of these, the same kinds and some more or fewer";
pub const RULE_ONE: &str = "blocks under rule 1";
pub const RULE_ONE_WITHOUT: &str = "a frame without blocks under rule 1";
const REFUSED_8: &str = "timings refused by 8";
const REFUSED_9: &str = "timings refused by 9";
const REFUSED_10: &str = "timings refused by 10";
const DROPPERS: [&str; 11] = [
    GAP,
    RESET,
    PROGRAMME_START,
    OTHER_KINDS,
    OTHER_COUNT,
    MORE_OR_FEWER,
    RULE_ONE,
    RULE_ONE_WITHOUT,
    REFUSED_8,
    REFUSED_9,
    REFUSED_10,
];

/// By rule, and by 0, 8, 9 and 10.
const TIMINGS: [&str; 8] = [
    "rule 1, 0",
    "rule 1, 8",
    "rule 1, 9",
    "rule 1, 10",
    "rule 2, 0",
    "rule 2, 8",
    "rule 2, 9",
    "rule 2, 10",
];

pub const BEHIND_END_9: &str = "9 behind a block that ends past 1,536";
pub const BEHIND_END_10: &str = "10 behind a block that ends past 1,536";
const BEHIND_END: [&str; 2] = [BEHIND_END_9, BEHIND_END_10];

pub const HELD_NONE: &str = "none";
pub const HELD: &str = "without doubt";
pub const HELD_IN_DOUBT: &str = "in doubt";
const ROWS: [&str; 3] = [HELD_NONE, HELD, HELD_IN_DOUBT];

pub const ACCEPTED: &str = "payloads accepted";
pub const REFUSED: &str = "payloads refused";
pub const OVERSIZED: &str = "of these, longer than the limit";
pub const CARRIED_OF_PAYLOADS: &str = "moves over an edge";
pub const UNSETTLED_CARRIED: &str = "of these, from rows with an unsettled mark";
const PAYLOADS: [&str; 5] = [
    ACCEPTED,
    REFUSED,
    OVERSIZED,
    CARRIED_OF_PAYLOADS,
    UNSETTLED_CARRIED,
];

/// Names with their titles.
const GROUPS: [(&str, &[&str]); 10] = [
    ("moves", &MOVES),
    ("moves that came to their end", &REACHED),
    ("a move is under way at the edge before", &CARRIED),
    ("and has", &COUNTS),
    ("the first start there", &FIRST),
    ("a move under way is dropped by", &DROPPERS),
    ("timings", &TIMINGS),
    ("timings of rule 2", &BEHIND_END),
    ("rows of frames without blocks", &ROWS),
    ("programmes of payloads", &PAYLOADS),
];

#[derive(Default)]
pub struct Seen {
    counts: BTreeMap<&'static str, u64>,
    pub programmes: u64,
    pub frames: u64,
    pub samples: u64,
}

impl Seen {
    pub fn count(&mut self, name: &'static str) {
        *self.counts.entry(name).or_default() += 1;
    }

    pub fn count_all(&mut self, names: Vec<&'static str>) {
        names.into_iter().for_each(|name| self.count(name));
    }

    /// What the timing test gave.
    pub fn timing(&mut self, rule: u32, number: u32) {
        self.count(TIMINGS[rule as usize * 4 - 4 + place(number)]);
    }

    /// The name of a timing refusal that drops a move.
    pub fn refusal(number: u32) -> &'static str {
        [REFUSED_8, REFUSED_9, REFUSED_10][place(number) - 1]
    }

    fn times(&self, name: &str) -> u64 {
        self.counts.get(name).copied().unwrap_or(0)
    }

    pub fn print(&self) {
        for (title, names) in GROUPS {
            println!("{title}:");
            for name in names {
                println!("{:9} {name}", self.times(name));
            }
        }
        println!(
            "programmes {}, frames {}, samples {}",
            self.programmes, self.frames, self.samples
        );
    }

    /// The names that were never seen, with their titles.
    pub fn unseen(&self) -> Vec<String> {
        let mut unseen = Vec::new();
        for (title, names) in GROUPS {
            let names = names.iter().filter(|name| self.times(name) == 0);
            unseen.extend(names.map(|name| format!("{title}: {name}")));
        }
        unseen
    }
}

/// Of 0, 8, 9 and 10.
fn place(number: u32) -> usize {
    number.saturating_sub(7) as usize
}

//! How often each event was seen. A run that lacks one of them proves too little.

use crate::events::{Event, Following};
use crate::lent::{FORM, ROOM};
use oracle::call::Call;
use std::collections::BTreeMap;
use std::mem::take;

pub const START: &str = "a programme start";
pub const RESET: &str = "a reset";
pub const LEFT: &str = "the table that the sequence before left";
pub const ZEROS: &str = "a table of zeros";
pub const PLANTED: &str = "any table in form";
pub const ANY_NUMBERS: &str = "of these, a programme start or a reset over any numbers";
const HEADS: [&str; 6] = [START, RESET, LEFT, ZEROS, PLANTED, ANY_NUMBERS];

const STARTS: &str = "programme starts";
const RESETS: &str = "resets";
const GAPS: &str = "gap notices";
const CALLS: [&str; 3] = [STARTS, RESETS, GAPS];

pub const FRAMES: &str = "frames compared";
pub const REFUSALS: &str = "refusals compared";
const ASTRAY: &str = "payloads heard astray, and compared but for what it retained";
const AGAIN: &str = "payloads compared in full again after it went astray";
const COMPARED: [&str; 4] = [FRAMES, REFUSALS, ASTRAY, AGAIN];

const MISSED: &str = "payloads that it missed";
const STARTS_TO_BOTH: &str = "programme starts to both";
const RESETS_TO_BOTH: &str = "resets to both";
const GAPS_TO_BOTH: &str = "gap notices to both";
const RESETS_ALONE: &str = "resets to it alone";
const GAPS_ALONE: &str = "gap notices to it alone";
const EVENTS: [&str; 6] = [
    MISSED,
    STARTS_TO_BOTH,
    RESETS_TO_BOTH,
    GAPS_TO_BOTH,
    RESETS_ALONE,
    GAPS_ALONE,
];

const ONE_BEFORE: &str = "one payload missed, one warning before it";
const ONE_BEHIND: &str = "one payload missed, one warning behind it";
const BEFORE: &str = "several missed, one warning before them";
const BETWEEN: &str = "several missed, one warning between them";
const BEHIND: &str = "several missed, one warning behind them";
const IN_PLACE: &str = "several missed, a warning to it alone in place of each";
const WARNINGS: &str = "one or more missed, several warnings otherwise";
const UNWARNED: &str = "one or more missed, no warning";
const STARTED: &str = "one or more missed, then a programme start";
const RESET_ALONE: &str = "none missed, one reset to it alone";
const GAP_ALONE: &str = "none missed, one gap notice to it alone";
const STRETCHES: [&str; 11] = [
    ONE_BEFORE,
    ONE_BEHIND,
    BEFORE,
    BETWEEN,
    BEHIND,
    IN_PLACE,
    WARNINGS,
    UNWARNED,
    STARTED,
    RESET_ALONE,
    GAP_ALONE,
];

const DECODE_ROOM: &str = "decode by 5 Room";
const DECODE_FORM: &str = "decode by 6 Form";
const DECODE_SIZE: &str = "decode by 7 Size";
const START_ROOM: &str = "programme start by 5 Room";
const RESET_ROOM: &str = "reset by 5 Room";
const GAP_ROOM: &str = "gap notice by 5 Room";
const GAP_FORM: &str = "gap notice by 6 Form";
const REFUSED: [&str; 7] = [
    DECODE_ROOM,
    DECODE_FORM,
    DECODE_SIZE,
    START_ROOM,
    RESET_ROOM,
    GAP_ROOM,
    GAP_FORM,
];

pub const FEWER: &str = "fewer bits than the payload's end left missing";
pub const ENOUGH: &str = "at least as many";
pub const INSIDE: &str = "any, where an element's end cut the read";
const APPENDED: [&str; 3] = [FEWER, ENOUGH, INSIDE];

/// Names with their titles.
const GROUPS: [(&str, &[&str]); 7] = [
    (
        "further calls that are refused before a payload is read",
        &REFUSED,
    ),
    ("truncated payloads with bytes appended", &APPENDED),
    ("sequences that begin with", &HEADS),
    ("calls between payloads of the other sequences", &CALLS),
    ("beside a decoder that heard all", &COMPARED),
    ("events past the head there", &EVENTS),
    ("stretches between payloads that both heard", &STRETCHES),
];

#[derive(Default)]
pub struct Seen {
    counts: BTreeMap<&'static str, u64>,
    stretch: Stretch,
    /// Whether a payload was heard astray, and none compared in full since.
    strayed: bool,
}

/// What came since the last payload that both heard.
#[derive(Default)]
struct Stretch {
    missed: usize,
    /// Each warning, and how many payloads were missed before it.
    warnings: Vec<(usize, Event)>,
}

impl Seen {
    pub fn count(&mut self, name: &'static str) {
        *self.counts.entry(name).or_default() += 1;
    }

    /// A sequence begins with this.
    pub fn begin(&mut self, head: &'static str) {
        self.count(head);
        self.stretch = Stretch::default();
        self.strayed = false;
    }

    pub fn call(&mut self, call: Call) {
        self.count(match call {
            Call::Start => STARTS,
            Call::Reset => RESETS,
            Call::Gap => GAPS,
        });
    }

    /// A call on the retained table, or else decode, by its refusal.
    pub fn refused(&mut self, call: Option<Call>, number: u32) {
        self.count(match (call, number) {
            (None, ROOM) => DECODE_ROOM,
            (None, FORM) => DECODE_FORM,
            (None, _) => DECODE_SIZE,
            (Some(Call::Start), _) => START_ROOM,
            (Some(Call::Reset), _) => RESET_ROOM,
            (Some(Call::Gap), ROOM) => GAP_ROOM,
            (Some(Call::Gap), _) => GAP_FORM,
        });
    }

    /// An event, and how the second decoder follows before it.
    pub fn event(&mut self, event: Event, following: Following) {
        match event {
            Event::Starts => self.count(STARTS_TO_BOTH),
            Event::Heard => self.heard(following == Following::Astray),
            Event::Missed => self.count(MISSED),
            Event::Warns(Call::Reset) => self.count(RESETS_ALONE),
            Event::Warns(_) => self.count(GAPS_ALONE),
            Event::WarnsBoth(Call::Reset) => self.count(RESETS_TO_BOTH),
            Event::WarnsBoth(_) => self.count(GAPS_TO_BOTH),
        }
        if let Some(name) = self.stretch.goes_on(event) {
            self.count(name);
        }
    }

    fn heard(&mut self, astray: bool) {
        if astray {
            self.count(ASTRAY);
        } else if self.strayed {
            self.count(AGAIN);
        }
        self.strayed = astray;
    }

    pub fn print(&self) {
        for (title, names) in GROUPS {
            println!("{title}:");
            for name in names {
                println!("{:9} {name}", self.times(name));
            }
        }
        let sum = |names: &[&str]| names.iter().map(|name| self.times(name)).sum::<u64>();
        println!(
            "in all: programme starts {}, resets {}, gap notices {}, payloads missed {}",
            sum(&[START, STARTS, STARTS_TO_BOTH]),
            sum(&[RESET, RESETS, RESETS_TO_BOTH, RESETS_ALONE]),
            sum(&[GAPS, GAPS_TO_BOTH, GAPS_ALONE]),
            sum(&[MISSED])
        );
    }

    fn times(&self, name: &str) -> u64 {
        self.counts.get(name).copied().unwrap_or(0)
    }

    /// The names that were never seen, with their titles.
    pub fn unseen(&self) -> Vec<String> {
        let mut unseen = Vec::new();
        for (title, names) in GROUPS {
            let names = names.iter().filter(|name| self.times(name) == 0);
            unseen.extend(names.map(|name| format!("{title}: {name}")));
        }
        unseen
    }
}

impl Stretch {
    /// The name of a stretch that ends with the event.
    fn goes_on(&mut self, event: Event) -> Option<&'static str> {
        match event {
            Event::Missed => self.missed += 1,
            Event::Warns(_) | Event::WarnsBoth(_) => self.warnings.push((self.missed, event)),
            Event::Heard => return take(self).name(),
            Event::Starts => return (take(self).missed > 0).then_some(STARTED),
        }
        None
    }

    fn name(&self) -> Option<&'static str> {
        match (self.missed, &self.warnings[..]) {
            (0, [(_, Event::Warns(Call::Reset))]) => Some(RESET_ALONE),
            (0, [(_, Event::Warns(_))]) => Some(GAP_ALONE),
            (0, _) => None,
            (_, []) => Some(UNWARNED),
            (1, [(0, _)]) => Some(ONE_BEFORE),
            (1, [_]) => Some(ONE_BEHIND),
            (_, [(0, _)]) => Some(BEFORE),
            (missed, [(at, _)]) if *at == missed => Some(BEHIND),
            (_, [_]) => Some(BETWEEN),
            _ if self.is_in_place() => Some(IN_PLACE),
            _ => Some(WARNINGS),
        }
    }

    fn is_in_place(&self) -> bool {
        let alone = |event: &Event| matches!(event, Event::Warns(_));
        let places = self.warnings.iter().map(|(at, _)| *at);
        places.eq(1..=self.missed) && self.warnings.iter().all(|(_, event)| alone(event))
    }
}

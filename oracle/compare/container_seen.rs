//! How often each thing was seen in containers. A long run that lacks one of them proves too little.

use oracle::answer::LONGEST_PAYLOAD;
use oracle::container::{Config, Met, FIELDS, LONGEST_CONTAINER, OBJECT_PAYLOAD, OTHER_PAYLOAD};
use oracle::container::{ENDS_EARLY, NO_OBJECTS, ROOM, SIZE, VERSION};
use std::collections::BTreeMap;

/// A run of fewer containers may miss something.
const LONG_RUN: u64 = 20_000;
const LIMIT: u128 = LONGEST_PAYLOAD as u128;

const ACCEPTED: &str = "0, a payload is copied";
const NO_ROOM: &str = "5, the buffer is too short";
const LONG_CONTAINER: &str = "7, the container is too long";
const LONG_OBJECT: &str = "7, the object payload is too long";
const CUT: &str = "13, the container ends early";
const OTHER_VERSION: &str = "14, another version";
const NONE_THERE: &str = "15, no object payload";
const NUMBERS: [&str; 7] = [
    ACCEPTED,
    NO_ROOM,
    LONG_CONTAINER,
    LONG_OBJECT,
    CUT,
    OTHER_VERSION,
    NONE_THERE,
];

const BITS: [&str; 8] = [
    "bit 0 of a byte",
    "bit 1",
    "bit 2",
    "bit 3",
    "bit 4",
    "bit 5",
    "bit 6",
    "bit 7",
];

const EMPTY: &str = "0 bytes";
const SHORT: &str = "1 to 16,383 bytes";
const LONGEST: &str = "16,384 bytes";
const ONE_OVER: &str = "16,385 bytes";
const MORE: &str = "more";
const SIZES: [&str; 5] = [EMPTY, SHORT, LONGEST, ONE_OVER, MORE];

/// Each flag, unset and set.
const FLAGS: [[&str; 2]; 8] = [
    ["no sample offset", "a sample offset"],
    ["no duration", "a duration"],
    ["no group", "a group"],
    ["no codec data", "codec data"],
    ["not to be discarded", "to be discarded if unknown"],
    ["not frame-aligned", "frame-aligned"],
    ["first duplicate flag unset", "first duplicate flag set"],
    ["second duplicate flag unset", "second duplicate flag set"],
];

const OFFSET_DISCARD: &str = "a sample offset, to be discarded";
const OFFSET_KEPT: &str = "a sample offset, not to be discarded";
const DISCARD: &str = "none, to be discarded";
const ALIGNED: &str = "none, not to be discarded, frame-aligned";
const FREE: &str = "none, not to be discarded, not frame-aligned";
const FORMS: [&str; 5] = [OFFSET_DISCARD, OFFSET_KEPT, DISCARD, ALIGNED, FREE];

/// The titles that names are counted under.
const BY_NUMBER: &str = "containers by the number given back";
const BY_CUT: &str = "containers that end early, also those cut at every byte, by what is cut";
const BY_PLACE: &str = "copied payloads, by where they begin";
const BY_SIZE: &str = "object payloads, by their size";
const BY_FLAG: &str = "configs, by their flags";
const BY_FORM: &str = "configs, by what decides of the rest";

#[derive(Default)]
pub struct ContainersSeen {
    containers: u64,
    counts: BTreeMap<(&'static str, &'static str), u64>,
}

impl ContainersSeen {
    /// A container, the answer to it, and what was met on the way there.
    pub fn count(&mut self, container: &[u8], answer: &Result<Vec<u8>, u32>, met: &Met) {
        self.containers += 1;
        self.add(BY_NUMBER, number_name(container, answer));
        self.cut(met);
        if let (Ok(_), Some(place)) = (answer, met.copied_from) {
            self.add(BY_PLACE, BITS[place % 8]);
        }
        if let Some(size) = met.object_size {
            self.add(BY_SIZE, size_name(size));
        }
        for config in &met.configs {
            self.config(config);
        }
    }

    /// Where the container's end came early.
    pub fn cut(&mut self, met: &Met) {
        if let Some(field) = met.cut {
            self.add(BY_CUT, field);
        }
    }

    fn config(&mut self, config: &Config) {
        let [first, second] = match config.duplicates {
            Some([first, second]) => [Some(first), Some(second)],
            None => [None, None],
        };
        let flags = [
            Some(config.sample_offset),
            Some(config.duration),
            Some(config.group),
            Some(config.codec_data),
            Some(config.discard),
            config.aligned,
            first,
            second,
        ];
        for (names, flag) in FLAGS.iter().zip(flags) {
            if let Some(set) = flag {
                self.add(BY_FLAG, names[usize::from(set)]);
            }
        }
        self.add(BY_FORM, form_name(config));
    }

    fn add(&mut self, title: &'static str, name: &'static str) {
        *self.counts.entry((title, name)).or_default() += 1;
    }

    fn times(&self, title: &'static str, name: &'static str) -> u64 {
        self.counts.get(&(title, name)).copied().unwrap_or(0)
    }

    pub fn print(&self) {
        for (title, names) in groups() {
            println!("{title}:");
            for name in names {
                println!("{:9} {name}", self.times(title, name));
            }
        }
        println!("containers {}", self.containers);
    }

    /// Why a long run proves too little.
    pub fn complaints(&self) -> Vec<String> {
        let mut complaints = Vec::new();
        if self.containers < LONG_RUN {
            return complaints;
        }
        for (title, names) in groups() {
            let unseen = names
                .into_iter()
                .filter(|name| self.times(title, name) == 0);
            complaints.extend(unseen.map(|name| format!("never seen: {title}: {name}")));
        }
        complaints
    }
}

/// Names with their titles.
fn groups() -> [(&'static str, Vec<&'static str>); 6] {
    // The first byte has the version and the key, so that no end stands within the key.
    let mut cut: Vec<&str> = FIELDS.into_iter().filter(|field| *field != "key").collect();
    cut.extend([OTHER_PAYLOAD, OBJECT_PAYLOAD]);
    [
        (BY_NUMBER, NUMBERS.to_vec()),
        (BY_CUT, cut),
        (BY_PLACE, BITS.to_vec()),
        (BY_SIZE, SIZES.to_vec()),
        (BY_FLAG, FLAGS.concat()),
        (BY_FORM, FORMS.to_vec()),
    ]
}

fn number_name(container: &[u8], answer: &Result<Vec<u8>, u32>) -> &'static str {
    match answer {
        Ok(_) => ACCEPTED,
        Err(ROOM) => NO_ROOM,
        Err(SIZE) if container.len() > LONGEST_CONTAINER => LONG_CONTAINER,
        Err(SIZE) => LONG_OBJECT,
        Err(ENDS_EARLY) => CUT,
        Err(VERSION) => OTHER_VERSION,
        Err(NO_OBJECTS) => NONE_THERE,
        Err(other) => unreachable!("no refusal has the number {other}"),
    }
}

fn size_name(size: u128) -> &'static str {
    match size {
        0 => EMPTY,
        LIMIT => LONGEST,
        _ if size < LIMIT => SHORT,
        _ if size == LIMIT + 1 => ONE_OVER,
        _ => MORE,
    }
}

fn form_name(config: &Config) -> &'static str {
    match (config.sample_offset, config.discard, config.aligned) {
        (true, true, _) => OFFSET_DISCARD,
        (true, false, _) => OFFSET_KEPT,
        (false, true, _) => DISCARD,
        (false, false, Some(true)) => ALIGNED,
        (false, false, _) => FREE,
    }
}

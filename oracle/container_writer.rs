//! Writes containers bit by bit; what a reader has no use for is drawn.

use crate::container::{Config, LAST_ID};
use crate::random::Random;

/// Version and key of a plain container, both 0.
const PLAIN_HEAD: usize = 5;

#[derive(Clone, Default)]
pub struct Writer {
    bytes: Vec<u8>,
    /// In bits.
    pub length: usize,
}

impl Writer {
    /// A container of version 0 and key 0 up to its first payload.
    pub fn plain() -> Self {
        let mut writer = Writer::default();
        writer.put(0, PLAIN_HEAD);
        writer
    }

    pub fn put(&mut self, value: u128, width: usize) {
        for shift in (0..width).rev() {
            if self.length % 8 == 0 {
                self.bytes.push(0);
            }
            let bit = (value >> shift & 1) as u8;
            self.bytes[self.length / 8] |= bit << (7 - self.length % 8);
            self.length += 1;
        }
    }

    /// So many bits, all drawn.
    pub fn any(&mut self, random: &mut Random, width: usize) {
        for _ in 0..width {
            self.put(u128::from(random.below(2)), 1);
        }
    }

    /// So many bytes, all drawn.
    pub fn any_bytes(&mut self, random: &mut Random, count: usize) {
        for _ in 0..count {
            self.put(u128::from(random.next() as u8), 8);
        }
    }

    /// A number in groups of a width. From the last group on: what is left of it has one too many.
    pub fn variable(&mut self, value: u128, width: usize) {
        let mut groups = vec![value % (1 << width)];
        let mut left = value >> width;
        while left > 0 {
            groups.push((left - 1) % (1 << width));
            left = (left - 1) >> width;
        }
        while let Some(group) = groups.pop() {
            self.put(group, width);
            self.put(u128::from(!groups.is_empty()), 1);
        }
    }

    /// Any number of so many groups of a width.
    pub fn groups(&mut self, random: &mut Random, width: usize, count: usize) {
        for left in (0..count).rev() {
            self.any(random, width);
            self.put(u128::from(left > 0), 1);
        }
    }

    pub fn id(&mut self, id: u128) {
        self.put(id.min(LAST_ID), 5);
        if id >= LAST_ID {
            self.variable(id - LAST_ID, 5);
        }
    }

    /// A config of these flags. Duration and group have so many groups.
    pub fn config(&mut self, random: &mut Random, config: &Config, groups: [usize; 2]) {
        if self.flag(config.sample_offset) {
            self.any(random, 11 + 1);
        }
        if self.flag(config.duration) {
            self.groups(random, 11, groups[0]);
        }
        if self.flag(config.group) {
            self.groups(random, 2, groups[1]);
        }
        if self.flag(config.codec_data) {
            self.any(random, 8);
        }
        if self.flag(config.discard) {
            return;
        }
        if let Some(aligned) = config.aligned {
            self.flag(aligned);
        }
        for duplicate in config.duplicates.into_iter().flatten() {
            self.flag(duplicate);
        }
        if config.sample_offset || config.aligned == Some(true) {
            self.any(random, 5 + 2);
        }
    }

    /// The bytes; the last one is filled with zeros.
    pub fn into_bytes(self) -> Vec<u8> {
        self.bytes
    }

    fn flag(&mut self, flag: bool) -> bool {
        self.put(u128::from(flag), 1);
        flag
    }
}

impl Config {
    /// Nothing stands behind a flag, since only the last one is set.
    pub const BARE: Config = Config {
        sample_offset: false,
        duration: false,
        group: false,
        codec_data: false,
        discard: true,
        aligned: None,
        duplicates: None,
    };

    pub fn drawn(random: &mut Random) -> Config {
        let sample_offset = random.flag();
        let discard = random.flag();
        let aligned = (!discard && !sample_offset).then(|| random.flag());
        Config {
            sample_offset,
            duration: random.flag(),
            group: random.flag(),
            codec_data: random.flag(),
            discard,
            aligned,
            duplicates: (aligned == Some(true)).then(|| [random.flag(), random.flag()]),
        }
    }

    /// Every config that can be written.
    pub fn all() -> Vec<Config> {
        let flags = [false, true];
        let mut all = Vec::new();
        for number in 0..16 {
            let set = |bit: u32| number >> bit & 1 == 1;
            let begun = Config {
                sample_offset: set(0),
                duration: set(1),
                group: set(2),
                codec_data: set(3),
                ..Config::BARE
            };
            all.push(begun);
            let kept = Config {
                discard: false,
                aligned: (!begun.sample_offset).then_some(false),
                ..begun
            };
            all.push(kept);
            if begun.sample_offset {
                continue;
            }
            let pairs = flags
                .into_iter()
                .flat_map(|one| flags.map(|two| [one, two]));
            all.extend(pairs.map(|pair| Config {
                aligned: Some(true),
                duplicates: Some(pair),
                ..kept
            }));
        }
        all
    }
}

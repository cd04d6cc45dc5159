//! Containers that a seed decides: most of them right and small, some at the limits, and some damaged.

use crate::answer::LONGEST_PAYLOAD;
use crate::container::{Config, END, LAST_ID, LONGEST_CONTAINER, OBJECTS};
use crate::container_writer::Writer;
use crate::random::Random;

const LIMIT: u32 = LONGEST_PAYLOAD as u32;
/// Of a payload that is written: one byte over the limit.
const MOST_BYTES: u128 = LONGEST_PAYLOAD as u128 + 1;
/// Damage is mostly done to the first bytes, where the syntax stands.
const FIRST: usize = 16;
/// Widths of a machine's numbers, and of sizes that are counted in its bits. Of a number past one of them,
/// what is left must not be taken for the whole.
const WRAPS: [u32; 6] = [8, 16, 29, 32, 61, 64];

/// What is lent is the front of some bytes: where it was cut, the rest of the container stands behind it.
pub struct Drawn {
    bytes: Vec<u8>,
    lent: usize,
}

impl Drawn {
    pub fn new(random: &mut Random) -> Self {
        let mut bytes = match random.below(200) {
            0..=2 => padded(random),
            3..=4 => full(random),
            5..=6 => endless(random),
            7..=17 => noise(random),
            _ => listed(random).into_bytes(),
        };
        let mut lent = bytes.len();
        match random.below(100) {
            0..=19 => lent = cut(random, lent),
            20..=29 => flip(random, &mut bytes),
            _ => {}
        }
        Drawn { bytes, lent }
    }

    pub fn container(&self) -> &[u8] {
        &self.bytes[..self.lent]
    }
}

/// Some payloads of other kinds, and then mostly an object payload.
fn listed(random: &mut Random) -> Writer {
    let mut writer = Writer::default();
    head(random, &mut writer);
    for _ in 0..random.pick(&[0, 0, 0, 1, 1, 2, 3, 6]) {
        other(random, &mut writer);
    }
    match random.below(32) {
        0..=3 => writer.id(END),
        4..=6 => beyond(random, &mut writer),
        // The list has no end.
        7 => return writer,
        _ => object(random, &mut writer),
    }
    behind(random, &mut writer);
    writer
}

fn head(random: &mut Random, writer: &mut Writer) {
    let version = if random.once_in(24) {
        random.pick(&[1, 2, 3, 3])
    } else {
        0
    };
    writer.put(version, 2);
    if version == 3 {
        let count = groups(random);
        writer.groups(random, 2, count);
    }
    let key = random.below(8);
    writer.put(u128::from(key), 3);
    if key == 7 {
        let count = groups(random);
        writer.groups(random, 3, count);
    }
}

/// How many groups a number has.
fn groups(random: &mut Random) -> usize {
    let many = random.between(6, 60) as usize;
    random.pick(&[1, 1, 1, 1, 1, 1, 1, 1, 2, 2, 2, 3, 3, 4, 5, many])
}

fn config(random: &mut Random, writer: &mut Writer) {
    let config = Config::drawn(random);
    let counts = [groups(random), groups(random)];
    writer.config(random, &config, counts);
}

/// A payload of another kind.
fn other(random: &mut Random, writer: &mut Writer) {
    other_id(random, writer);
    config(random, writer);
    let two_groups = random.between(200, 700);
    let few = random.below(24);
    let size = random.pick(&[0, few, few, few, few, few, few, two_groups]);
    writer.variable(u128::from(size), 8);
    writer.any_bytes(random, size as usize);
}

fn other_id(random: &mut Random, writer: &mut Writer) {
    match random.below(16) {
        0..=2 => writer.id(LAST_ID + random.pick(&[0, 1, 11, 12, 32, 33])),
        3 => writer.id((1 << random.pick(&WRAPS)) + random.pick(&[END, OBJECTS])),
        4 => {
            writer.put(LAST_ID, 5);
            let count = groups(random);
            writer.groups(random, 5, count);
        }
        _ => {
            let id = u128::from(random.between(1, 29));
            writer.id(id + u128::from(id >= OBJECTS));
        }
    }
}

fn object(random: &mut Random, writer: &mut Writer) {
    writer.id(OBJECTS);
    config(random, writer);
    if random.once_in(100) {
        let count = groups(random) + 2;
        return writer.groups(random, 8, count);
    }
    let size = object_size(random);
    writer.variable(size, 8);
    let some = u128::from(random.below(60));
    let there = if size > MOST_BYTES || size == MOST_BYTES && random.flag() {
        some
    } else {
        size
    };
    writer.any_bytes(random, there as usize);
}

fn object_size(random: &mut Random) -> u128 {
    let size = match random.below(400) {
        0..=19 => 0,
        20..=39 => random.between(200, 700),
        40..=42 => random.between(LIMIT - 1, LIMIT),
        43 => random.below(LIMIT),
        44..=46 => LIMIT + 1,
        47..=48 => LIMIT + random.between(2, 60_000),
        49..=52 => return (1 << random.pick(&WRAPS)) + u128::from(random.below(60)),
        _ => random.below(70),
    };
    u128::from(size)
}

/// A size past the container's end. What it might be taken for is there, and an object payload behind it.
fn beyond(random: &mut Random, writer: &mut Writer) {
    other_id(random, writer);
    config(random, writer);
    let there = random.below(24);
    let past = random.between(1, 2_000);
    let wrapped = 1 << random.pick(&WRAPS);
    let more = random.pick(&[u128::from(past), wrapped, wrapped]);
    writer.variable(u128::from(there) + more, 8);
    writer.any_bytes(random, there as usize);
    if random.flag() {
        object(random, writer);
    }
}

/// What is not read any more: nothing, further payloads, the end of the list, protection.
fn behind(random: &mut Random, writer: &mut Writer) {
    let sort = random.below(4);
    if sort == 0 {
        return;
    }
    if sort == 1 {
        other(random, writer);
        object(random, writer);
    }
    if sort < 3 {
        writer.id(END);
    }
    let bytes = random.below(20);
    writer.any_bytes(random, bytes as usize);
}

/// About as long as a container may be, by what stands behind the list.
fn padded(random: &mut Random) -> Vec<u8> {
    let mut bytes = listed(random).into_bytes();
    let longest = LONGEST_CONTAINER;
    let length = random.pick(&[longest - 1, longest, longest + 1, longest + 5_000]);
    bytes.resize_with(length, || random.next() as u8);
    bytes
}

/// An object payload behind a long one of another kind. It ends in the container's last byte.
fn full(random: &mut Random) -> Vec<u8> {
    let longest = LONGEST_CONTAINER as u32;
    let length = random.pick(&[20_000, longest - 1, longest, longest, longest + 1]);
    let size = length - random.between(60, 300);
    let mut writer = Writer::plain();
    other_id(random, &mut writer);
    writer.config(random, &Config::BARE, [1, 1]);
    writer.variable(u128::from(size), 8);
    writer.any_bytes(random, size as usize);
    writer.id(OBJECTS);
    config(random, &mut writer);
    // One group, and its flag.
    let left = (length as usize * 8).saturating_sub(writer.length + 9) / 8;
    let size = left.min(255);
    writer.variable(size as u128, 8);
    writer.any_bytes(random, size);
    writer.into_bytes()
}

/// A number whose groups go on to the container's end: of the version, the key, an id or a size.
fn endless(random: &mut Random) -> Vec<u8> {
    let mut writer = Writer::default();
    let sort = random.below(4);
    if sort > 0 {
        writer.put(0, 2);
    }
    if sort > 1 {
        writer.put(0, 3);
    }
    if sort > 2 {
        writer.id(random.pick(&[OBJECTS, 1]));
        config(random, &mut writer);
    }
    let begun = writer.length % 8;
    writer.put(0xff, 8 - begun);
    let mut bytes = writer.into_bytes();
    let length = random.pick(&[20, 20, 300, 300, 3_000, LONGEST_CONTAINER]);
    bytes.resize(length, 0xff);
    bytes
}

/// Any bytes; half of them with version 0.
fn noise(random: &mut Random) -> Vec<u8> {
    let mut bytes: Vec<u8> = (0..random.below(60)).map(|_| random.next() as u8).collect();
    if let Some(first) = bytes.first_mut() {
        *first &= random.pick(&[0x3f, 0xff]);
    }
    bytes
}

/// As many bytes as are left.
fn cut(random: &mut Random, length: usize) -> usize {
    let first = length.min(FIRST);
    let most = random.pick(&[length, first, first, first]);
    random.index(most + 1)
}

fn flip(random: &mut Random, bytes: &mut [u8]) {
    for _ in 0..random.between(1, 3) {
        if !bytes.is_empty() {
            let at = random.index(bytes.len().min(FIRST));
            bytes[at] ^= 1 << random.below(8);
        }
    }
}

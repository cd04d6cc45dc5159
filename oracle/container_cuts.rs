//! Containers to be cut at every byte. Each stands at all eight shifts, so that every bit is the last once.

use crate::container::{Config, END, LAST_ID, OBJECTS};
use crate::container_writer::Writer;
use crate::random::Random;

const SHIFTS: usize = 8;
/// The ids of payloads that are passed over: plain, and of one to three further groups.
const OTHERS: [u128; 6] = [1, LAST_ID, LAST_ID + 11, LAST_ID + 32, 2_000, 70_000];
/// Of one to three groups and more. As many bytes follow, where that is not too much.
const SIZES: [u128; 9] = [0, 1, 255, 256, 300, 16_385, 65_791, 65_792, 1 << 70];
const MOST_BYTES: u128 = 300;
/// Groups of a number in the head, at most.
const MOST_GROUPS: usize = 9;

pub fn all() -> Vec<Vec<u8>> {
    let mut random = Random::new(0);
    let mut all = Vec::new();
    for shift in 0..SHIFTS {
        let lead = lead(&mut random, shift);
        let configs = Config::all().into_iter();
        all.extend(configs.map(|config| with_object(&mut random, &lead, &config, 3)));
        let sizes = SIZES.into_iter();
        all.extend(sizes.map(|size| with_object(&mut random, &lead, &Config::BARE, size)));
        all.extend(OTHERS.map(|id| with_other(&mut random, &lead, id, 2)));
        all.extend(SIZES.map(|size| with_other(&mut random, &lead, 1, size)));
        all.push(ended(&mut random, &lead));
    }
    for groups in 1..=MOST_GROUPS {
        all.push(with_version(&mut random, groups));
        all.push(with_key(&mut random, groups));
    }
    all.into_iter().map(Writer::into_bytes).collect()
}

/// One payload that is passed over. A group of its group number has three bits, and so eight of them
/// bring what follows to each bit of a byte.
fn lead(random: &mut Random, shift: usize) -> Writer {
    let config = Config {
        group: true,
        ..Config::BARE
    };
    let mut lead = Writer::plain();
    lead.id(1);
    lead.config(random, &config, [1, 1 + shift]);
    lead.variable(1, 8);
    lead.any_bytes(random, 1);
    lead
}

fn with_object(random: &mut Random, lead: &Writer, config: &Config, size: u128) -> Writer {
    let mut writer = lead.clone();
    payload(random, &mut writer, OBJECTS, config, size);
    writer.any_bytes(random, 2);
    writer
}

/// A payload of another kind, and an object payload behind it.
fn with_other(random: &mut Random, lead: &Writer, id: u128, size: u128) -> Writer {
    let mut writer = lead.clone();
    payload(random, &mut writer, id, &Config::BARE, size);
    payload(random, &mut writer, OBJECTS, &Config::BARE, 2);
    writer
}

fn payload(random: &mut Random, writer: &mut Writer, id: u128, config: &Config, size: u128) {
    writer.id(id);
    writer.config(random, config, [2, 3]);
    writer.variable(size, 8);
    let there = if size > MOST_BYTES { 2 } else { size };
    writer.any_bytes(random, there as usize);
}

fn ended(random: &mut Random, lead: &Writer) -> Writer {
    let mut writer = lead.clone();
    writer.id(END);
    writer.any_bytes(random, 3);
    writer
}

fn with_version(random: &mut Random, groups: usize) -> Writer {
    let mut writer = Writer::default();
    writer.put(3, 2);
    writer.groups(random, 2, groups);
    writer.any_bytes(random, 2);
    writer
}

fn with_key(random: &mut Random, groups: usize) -> Writer {
    let mut writer = Writer::default();
    writer.put(0, 2);
    writer.put(7, 3);
    writer.groups(random, 3, groups);
    payload(random, &mut writer, OBJECTS, &Config::BARE, 2);
    writer
}

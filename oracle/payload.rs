//! A valid payload in parts: its head, its elements and its padding.

use crate::assignment::{put_count, Assignment, MOST_OBJECTS};
use crate::bits::Bits;
use crate::context as c;
use crate::object_element;
use crate::random::Random;

pub const OBJECT_ID: u32 = 1;
pub const TRIM_ID: u32 = 2;
pub const UNKNOWN_IDS: [u32; 14] = [0, 3, 4, 5, 6, 7, 8, 9, 10, 11, 12, 13, 14, 15];

/// Bits that no rule looks at.
const FREE: u8 = 0;
/// A size group after the first: cut short it is a limit and not truncated, so it is named apart.
pub const LATER_SIZE_GROUP: u8 = 255;

/// What payloads are drawn for.
#[derive(Clone, Copy, PartialEq, Eq)]
pub enum Purpose {
    /// To be decoded, mostly short.
    Usual,
    /// The same, and never of hundreds of bytes.
    Short,
    /// To be spoiled at one field: rare fields are frequent.
    Busy,
}

pub struct Element {
    pub id: u32,
    pub body: Bits,
    pub bytes: usize,
}

pub struct Payload {
    head: Bits,
    pub elements: Vec<Element>,
    padding_bytes: usize,
}

impl Payload {
    pub fn random(random: &mut Random, assignment: &Assignment, purpose: Purpose) -> Self {
        let alternate = random.once_in(if purpose == Purpose::Busy { 2 } else { 6 });
        let count = element_count(random, purpose);
        let object_at = random.below(count);
        let mut payload = Self::head_alone(random, assignment, alternate, count);
        for index in 0..count {
            let id = if index == object_at {
                OBJECT_ID
            } else {
                other_id(random)
            };
            payload
                .elements
                .push(Element::random(random, id, assignment, alternate, purpose));
        }
        payload
    }

    /// What stands before the elements: enough where the payload is to be cut in it.
    pub fn head_alone(
        random: &mut Random,
        assignment: &Assignment,
        alternate: bool,
        elements: u32,
    ) -> Self {
        Payload {
            head: head(random, assignment, alternate, elements),
            elements: Vec::new(),
            padding_bytes: if random.once_in(4) {
                random.between(1, 3) as usize
            } else {
                0
            },
        }
    }

    pub fn assembled(&self) -> Bits {
        let mut bits = self.head.clone();
        for element in &self.elements {
            element.write(&mut bits);
        }
        let rest = bits.length.next_multiple_of(8) - bits.length;
        bits.zeros(rest + self.padding_bytes * 8, c::PAYLOAD_PADDING);
        bits
    }
}

fn element_count(random: &mut Random, purpose: Purpose) -> u32 {
    let many_once_in = if purpose == Purpose::Busy { 6 } else { 60 };
    if random.once_in(many_once_in) {
        return random.between(14, 31);
    }
    random.pick(&[1, 1, 1, 1, 2, 2, 3, 4])
}

fn other_id(random: &mut Random) -> u32 {
    if random.flag() {
        TRIM_ID
    } else {
        random.pick(&UNKNOWN_IDS)
    }
}

fn head(random: &mut Random, assignment: &Assignment, alternate: bool, elements: u32) -> Bits {
    let mut bits = Bits::default();
    bits.put(0, 2, c::VERSION);
    let objects = assignment.objects().min(MOST_OBJECTS);
    put_count(
        &mut bits,
        objects,
        [c::OBJECT_COUNT, c::EXTENDED_OBJECT_COUNT],
    );
    assignment.write(&mut bits, random);
    bits.flag(alternate, c::ALTERNATE_OBJECT_DATA_FLAG);
    bits.put(elements.min(15), 4, c::ELEMENT_COUNT);
    if elements >= 15 {
        bits.put(elements - 15, 5, c::EXTENDED_ELEMENT_COUNT);
    }
    bits
}

impl Element {
    fn random(
        random: &mut Random,
        id: u32,
        assignment: &Assignment,
        alternate: bool,
        purpose: Purpose,
    ) -> Self {
        let mut body = Bits::default();
        if alternate {
            body.put(0, 4, c::ALTERNATE_OBJECT_DATA_ID);
        }
        body.flag(random.flag(), c::DISCARD_UNKNOWN_ELEMENT_FLAG);
        match id {
            OBJECT_ID => {
                object_element::write(&mut body, random, assignment, purpose == Purpose::Busy)
            }
            TRIM_ID => write_trim(&mut body, random, assignment.objects()),
            _ => {
                let free = random.below(40) as usize;
                body.run(random, free, FREE);
            }
        }
        let bytes = body.length.div_ceil(8) + spare_bytes(random, purpose);
        Element { id, body, bytes }
    }

    /// Writes no more of the body than the element's size takes in.
    fn write(&self, bits: &mut Bits) {
        bits.put(self.id, 4, c::ELEMENT_ID);
        put_size(bits, self.bytes);
        let all = self.bytes * 8;
        bits.name(all, c::ELEMENT);
        let used = self.body.length.min(all);
        bits.append(&self.body, used);
        let padded = matches!(self.id, OBJECT_ID | TRIM_ID);
        bits.zeros(all - used, if padded { c::ELEMENT_PADDING } else { FREE });
    }
}

fn write_trim(bits: &mut Bits, random: &mut Random, objects: u32) {
    bits.put(random.below(2), 2, c::TRIM_WARP_MODE);
    bits.put(0, 2, c::TRIM_RESERVED_BITS);
    bits.put(random.below(2), 2, c::GLOBAL_TRIM_MODE);
    if bits.flag(random.flag(), c::PER_OBJECT_TRIM_DISABLE_FLAG) {
        bits.run(random, objects as usize, c::PER_OBJECT_TRIM_DISABLE_FLAGS);
    }
}

/// Bytes beyond what the body needs; hundreds of them take a third size group, thousands a fourth.
fn spare_bytes(random: &mut Random, purpose: Purpose) -> usize {
    let spare = match random.below(10) {
        0..=5 => 0,
        6..=8 => random.between(1, 2),
        _ => random.between(3, 20),
    };
    if purpose != Purpose::Usual {
        return spare as usize;
    }
    match random.below(20_000) {
        0 => random.between(4_368, 6_000) as usize,
        1..=20 => random.between(256, 300) as usize,
        _ => spare as usize,
    }
}

/// Each group after the first adds 16, so a size has one coding alone.
fn put_size(bits: &mut Bits, bytes: usize) {
    let mut groups = Vec::new();
    let mut value = bytes as u32 - 1;
    while value >= 16 {
        groups.push(value % 16);
        value = value / 16 - 1;
    }
    bits.put(value, 4, c::ELEMENT_SIZE);
    for &group in groups.iter().rev() {
        bits.flag(true, c::ELEMENT_SIZE);
        bits.put(group, 4, LATER_SIZE_GROUP);
    }
    bits.flag(false, c::ELEMENT_SIZE);
}

//! A bit writer that remembers its fields, so that a payload can be cut or spoiled at one of them.

use crate::random::Random;

/// The bits that one read or skip takes, with the context of that read.
#[derive(Clone, Copy)]
pub struct Field {
    pub context: u8,
    pub place: usize,
    pub width: usize,
}

impl Field {
    /// The count of whole bytes that end inside the field, where there is one.
    pub fn cutting_bytes(&self) -> Option<usize> {
        let bytes = self.place.div_ceil(8);
        (bytes * 8 < self.place + self.width).then_some(bytes)
    }
}

#[derive(Clone, Default)]
pub struct Bits {
    bytes: Vec<u8>,
    pub length: usize,
    fields: Vec<Field>,
}

impl Bits {
    pub fn put(&mut self, value: u32, width: usize, context: u8) {
        self.name(width, context);
        self.push(value, width);
    }

    pub fn flag(&mut self, value: bool, context: u8) -> bool {
        self.put(u32::from(value), 1, context);
        value
    }

    /// Free bits that are skipped as one run.
    pub fn run(&mut self, random: &mut Random, width: usize, context: u8) {
        self.name(width, context);
        for _ in 0..width {
            self.push(random.below(2), 1);
        }
    }

    pub fn zeros(&mut self, width: usize, context: u8) {
        self.name(width, context);
        for _ in 0..width {
            self.push(0, 1);
        }
    }

    pub fn fields_of(&self, context: u8) -> impl Iterator<Item = &Field> {
        self.fields
            .iter()
            .filter(move |field| field.context == context)
    }

    /// Gives the next `width` bits a context before they are written.
    pub fn name(&mut self, width: usize, context: u8) {
        self.fields.push(Field {
            context,
            place: self.length,
            width,
        });
    }

    /// The first `length` bits of another writer, with the fields that lie in them.
    pub fn append(&mut self, other: &Bits, length: usize) {
        let whole = other
            .fields
            .iter()
            .filter(|field| field.place + field.width <= length);
        let shifted = whole.map(|field| Field {
            place: field.place + self.length,
            ..*field
        });
        self.fields.extend(shifted);
        for place in 0..length {
            self.push(other.bit(place), 1);
        }
    }

    pub fn overwrite(&mut self, place: usize, width: usize, value: u32) {
        for bit in 0..width {
            self.set(place + bit, value >> (width - 1 - bit) & 1);
        }
    }

    pub fn value(&self, field: &Field) -> u32 {
        (field.place..field.place + field.width)
            .fold(0, |value, place| value << 1 | self.bit(place))
    }

    /// The bytes; the last one is filled with zeros.
    pub fn bytes(&self) -> &[u8] {
        &self.bytes
    }

    pub fn into_bytes(self) -> Vec<u8> {
        self.bytes
    }

    fn bit(&self, place: usize) -> u32 {
        u32::from(self.bytes[place / 8] >> (7 - place % 8) & 1)
    }

    fn set(&mut self, place: usize, bit: u32) {
        let mask = 0x80 >> (place % 8);
        if bit == 1 {
            self.bytes[place / 8] |= mask;
        } else {
            self.bytes[place / 8] &= !mask;
        }
    }

    fn push(&mut self, value: u32, width: usize) {
        for shift in (0..width).rev() {
            if self.length % 8 == 0 {
                self.bytes.push(0);
            }
            self.length += 1;
            self.set(self.length - 1, value >> shift & 1);
        }
    }
}

//! Ways to spoil a valid payload at one field, so that it is refused there.

use crate::bits::{Bits, Field};
use crate::context as c;
use crate::payload::{Payload, OBJECT_ID, UNKNOWN_IDS};
use crate::random::Random;

/// How a valid payload is spoiled.
#[derive(Clone, Copy)]
pub enum Way {
    /// The payload ends inside a field of this context, before its elements.
    HeadEnd(u8),
    /// The payload ends inside a field of this context.
    PayloadEnd(u8),
    /// An element ends inside a field of this context.
    ElementEnd(u8),
    /// The bits from a field of this context on spell a number from the first to the second.
    Value(u8, usize, u32, u32),
    /// One of these zero bits is set.
    OneBit(u8),
    /// An element's size has so many groups: four take in more than the payload has, and five are refused.
    SizeGroups(usize),
    WrongCount,
    TooManyObjects,
    SecondObjectElement,
    NoObjectElement,
}

impl Way {
    /// The spoiled payload; none where this one lacks the field, or no byte ends in it.
    pub fn spoil(self, mut payload: Payload, random: &mut Random) -> Option<Vec<u8>> {
        if let Way::ElementEnd(context) = self {
            end_element(&mut payload, context, random)?;
        }
        let mut bits = payload.assembled();
        match self {
            Way::HeadEnd(context) | Way::PayloadEnd(context) => {
                return end_payload(bits, context, random)
            }
            Way::Value(context, width, low, high) => {
                let field = one_of(&bits, context, random)?;
                // A limit is best tried by the first value beyond it.
                let value = random.between(low, high);
                let value = random.pick(&[low, value, value]);
                overwrite(&mut bits, field.place, width, value)?;
            }
            Way::OneBit(context) => {
                let field = one_of(&bits, context, random).filter(|field| field.width > 0)?;
                bits.overwrite(field.place + random.index(field.width), 1, 1);
            }
            Way::SizeGroups(count) => size_groups(&mut bits, count, random)?,
            Way::WrongCount => wrong_count(&mut bits, random)?,
            Way::SecondObjectElement => {
                let later = ids_from_object(&bits, &payload).split_off(1);
                let place = *later.get(random.index(later.len().max(1)))?;
                bits.overwrite(place, 4, OBJECT_ID);
            }
            Way::NoObjectElement => {
                let place = ids_from_object(&bits, &payload)[0];
                bits.overwrite(place, 4, random.pick(&UNKNOWN_IDS));
            }
            Way::TooManyObjects | Way::ElementEnd(_) => {}
        }
        Some(bits.into_bytes())
    }
}

fn one_of(bits: &Bits, context: u8, random: &mut Random) -> Option<Field> {
    let found: Vec<Field> = bits.fields_of(context).copied().collect();
    (!found.is_empty()).then(|| random.pick(&found))
}

fn overwrite(bits: &mut Bits, place: usize, width: usize, value: u32) -> Option<()> {
    (place + width <= bits.length).then(|| bits.overwrite(place, width, value))
}

fn end_payload(bits: Bits, context: u8, random: &mut Random) -> Option<Vec<u8>> {
    let ends: Vec<usize> = bits
        .fields_of(context)
        .filter_map(Field::cutting_bytes)
        .collect();
    let mut bytes = bits.into_bytes();
    (!ends.is_empty()).then(|| {
        bytes.truncate(random.pick(&ends));
        bytes
    })
}

fn end_element(payload: &mut Payload, context: u8, random: &mut Random) -> Option<()> {
    let mut ends = Vec::new();
    for (index, element) in payload.elements.iter().enumerate() {
        let cuts = element
            .body
            .fields_of(context)
            .filter_map(Field::cutting_bytes);
        ends.extend(cuts.map(|bytes| (index, bytes)));
    }
    (!ends.is_empty()).then(|| {
        let (index, bytes) = random.pick(&ends);
        payload.elements[index].bytes = bytes;
    })
}

/// Groups of any bits, or of ones: the more flag is set behind each but the last.
fn size_groups(bits: &mut Bits, count: usize, random: &mut Random) -> Option<()> {
    let size = one_of(bits, c::ELEMENT_ID, random)?.place + 4;
    let any = random.next() as u32;
    let groups = random.pick(&[any, any, u32::MAX]) & !1 | 0b00001_00001_00001_00001_00000;
    overwrite(bits, size, 5 * count, groups)
}

/// Another count in as many bits, so that what follows keeps its places.
fn wrong_count(bits: &mut Bits, random: &mut Random) -> Option<()> {
    let field = one_of(bits, c::OBJECT_COUNT, random)?;
    let value = (bits.value(&field) + random.between(1, 30)) % 31;
    overwrite(bits, field.place, field.width, value)
}

/// Where the id of the object element stands, and the ids of the elements after it.
fn ids_from_object(bits: &Bits, payload: &Payload) -> Vec<usize> {
    let places = bits.fields_of(c::ELEMENT_ID).map(|field| field.place);
    let named = places.zip(&payload.elements);
    named
        .skip_while(|(_, element)| element.id != OBJECT_ID)
        .map(|(place, _)| place)
        .collect()
}

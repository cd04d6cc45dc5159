//! Payloads aimed at one refusal each, for every pair of number and context that can be reached.
//!
//! 85 pairs can be reached: 66 Truncated, 13 Invalid, 3 Limit and 3 Unsupported.
//! These contexts are never refused in a payload of whole bytes:
//!
//!  2 extended version: bits 2 to 4 lie in the first byte, whose version bits were read.
//! 10 element position: a sum that would have to pass the largest usize.
//! 12 alternate id, 14 discard flag: they lie in an element's first byte, and each element has one.
//! 19 dynamic-only flag: bit 7, or bit 14 after an extension, in a byte that was read before.
//! 22 distribution flag, 23 multiple flag: bits 12 and 13, or 19 and 20, in the content's own byte.
//! 44 update start sample: at most 31 + 63 x 32 = 2047, which fits.
//! 85 trim-disable flag: bit 7 or 11 of its element, in the byte of the trim mode before it.
//!
//! And these are refused for their values alone, and never cut:
//!
//!  3 object count: bits 2 to 6 of the first byte.
//! 35 sample-offset code, 81 warp mode: they end by bit 6 of their element.
//! 83 trim mode: bits 5 and 6; or 9 and 10, where the reserved bits before took the second byte.

use crate::answer::{INVALID, LIMIT, TRUNCATED, UNSUPPORTED};
use crate::assignment::Assignment;
use crate::context as c;
use crate::payload::{Payload, Purpose, LATER_SIZE_GROUP};
use crate::random::Random;
use crate::spoil::Way;
use std::collections::BTreeSet;

#[derive(Clone, Copy)]
pub struct Aim {
    pub number: u8,
    pub context: u8,
    way: Way,
}

/// Fields that the payload's end can cut before its elements, first and last of each stretch.
const CUT_IN_HEADS: [(u8, u8); 4] = [
    (c::VERSION, c::VERSION),
    (c::EXTENDED_OBJECT_COUNT, c::EXTENDED_ELEMENT_COUNT),
    (c::LFE_PRESENT_FLAG, c::CONTENT_DESCRIPTION),
    (c::BED_INSTANCE_COUNT, c::PROGRAM_ASSIGNMENT_RESERVED_DATA),
];

/// Fields of elements that the payload's end can cut.
const CUT_IN_PAYLOADS: [(u8, u8); 2] = [(c::ELEMENT_ID, c::ELEMENT_SIZE), (c::ELEMENT, c::ELEMENT)];

/// Fields that an element's end can cut.
const CUT_IN_ELEMENTS: [(u8, u8); 4] = [
    (c::SAMPLE_OFFSET_INDEX, c::RAMP_DURATION),
    (c::RESERVED_DATA_NOT_PRESENT_FLAG, c::OBJECT_SNAP_FLAG),
    (c::TRIM_RESERVED_BITS, c::TRIM_RESERVED_BITS),
    (TRIM_FLAGS, TRIM_FLAGS),
];
const TRIM_FLAGS: u8 = c::PER_OBJECT_TRIM_DISABLE_FLAGS;

const SPOILED: [Aim; 22] = [
    wrong_value(UNSUPPORTED, c::VERSION, 2, 1, 3),
    // 31 and an extension of 97 or more make 129 objects or more.
    wrong_value(LIMIT, c::OBJECT_COUNT, 12, 31 << 7 | 97, 31 << 7 | 127),
    // 15 and an extension of 17 or more make 32 elements or more.
    wrong_value(LIMIT, c::ELEMENT_COUNT, 9, 15 << 5 | 17, 15 << 5 | 31),
    wrong_value(INVALID, c::INTERMEDIATE_SPATIAL_FORMAT_INDEX, 3, 6, 7),
    wrong_value(INVALID, c::SAMPLE_OFFSET_CODE, 2, 3, 3),
    wrong_value(INVALID, c::OBJECT_ELEMENT_RESERVED_DATA, 5, 1, 31),
    wrong_value(INVALID, c::ZONE_CONSTRAINTS_INDEX, 3, 6, 7),
    wrong_value(INVALID, c::OBJECT_SIZE_INDEX, 2, 3, 3),
    wrong_value(INVALID, c::TRIM_WARP_MODE, 2, 2, 3),
    wrong_value(INVALID, c::TRIM_RESERVED_BITS, 2, 1, 3),
    wrong_value(INVALID, c::GLOBAL_TRIM_MODE, 2, 3, 3),
    aim(UNSUPPORTED, c::CUSTOM_TRIM_CONFIGURATION, CUSTOM_TRIM),
    aim(UNSUPPORTED, c::ALTERNATE_OBJECT_DATA_TYPE, OTHER_TYPE),
    aim(TRUNCATED, c::ELEMENT, Way::SizeGroups(4)),
    aim(LIMIT, c::ELEMENT_SIZE, Way::SizeGroups(5)),
    aim(LIMIT, c::ELEMENT_SIZE, Way::PayloadEnd(LATER_SIZE_GROUP)),
    aim(INVALID, c::ELEMENT_PADDING, Way::OneBit(c::ELEMENT_PADDING)),
    aim(INVALID, c::PAYLOAD_PADDING, Way::OneBit(c::PAYLOAD_PADDING)),
    aim(
        INVALID,
        c::DUPLICATE_OBJECT_ELEMENT,
        Way::SecondObjectElement,
    ),
    aim(INVALID, c::MISSING_OBJECT_ELEMENT, Way::NoObjectElement),
    aim(INVALID, c::PROGRAM_ASSIGNMENT_OBJECT_COUNT, Way::WrongCount),
    aim(
        INVALID,
        c::PROGRAM_ASSIGNMENT_OBJECT_COUNT,
        Way::TooManyObjects,
    ),
];
const CUSTOM_TRIM: Way = Way::Value(c::GLOBAL_TRIM_MODE, 2, 2, 2);
const OTHER_TYPE: Way = Way::Value(c::ALTERNATE_OBJECT_DATA_ID, 4, 1, 15);

const fn aim(number: u8, context: u8, way: Way) -> Aim {
    Aim {
        number,
        context,
        way,
    }
}

/// The field that is tested bears the refusal's context; its values from `low` to `high` are refused.
const fn wrong_value(number: u8, context: u8, width: usize, low: u32, high: u32) -> Aim {
    aim(number, context, Way::Value(context, width, low, high))
}

/// Every aim; some pairs have two.
pub fn aims() -> Vec<Aim> {
    let mut aims = cuts(&CUT_IN_HEADS, Way::HeadEnd);
    aims.extend(cuts(&CUT_IN_PAYLOADS, Way::PayloadEnd));
    aims.extend(cuts(&CUT_IN_ELEMENTS, Way::ElementEnd));
    aims.extend(SPOILED);
    aims
}

/// The pairs of number and context that can be reached, as an answer has them.
pub fn reachable() -> BTreeSet<(u32, u32)> {
    let aims = aims().into_iter();
    aims.map(|aim| (aim.number.into(), aim.context.into()))
        .collect()
}

fn cuts(stretches: &[(u8, u8)], way: fn(u8) -> Way) -> Vec<Aim> {
    let contexts = stretches.iter().flat_map(|&(first, last)| first..=last);
    contexts
        .map(|context| aim(TRUNCATED, context, way(context)))
        .collect()
}

impl Aim {
    /// A payload that is refused so. Payloads are drawn until one has what the aim spoils.
    pub fn payload(&self, random: &mut Random) -> Vec<u8> {
        const PATIENCE: u32 = 100_000;
        for _ in 0..PATIENCE {
            let payload = self.unspoiled(random);
            if let Some(spoiled) = self.way.spoil(payload, random) {
                return spoiled;
            }
        }
        panic!("no payload for refusal {} {}", self.number, self.context);
    }

    fn unspoiled(&self, random: &mut Random) -> Payload {
        if matches!(self.way, Way::HeadEnd(_)) {
            // Enough objects for each extension of a count, and for many beds.
            let assignment = self.assignment(random, 80);
            let elements = random.between(1, 31);
            return Payload::head_alone(random, &assignment, false, elements);
        }
        let assignment = self.assignment(random, 6);
        Payload::random(random, &assignment, Purpose::Busy)
    }

    fn assignment(&self, random: &mut Random, most: u32) -> Assignment {
        match self.context {
            _ if matches!(self.way, Way::TooManyObjects) => Assignment::oversized(random),
            c::CONTENT_DESCRIPTION..=c::PROGRAM_ASSIGNMENT_OBJECT_COUNT => {
                Assignment::random_mixed(random, most)
            }
            _ => Assignment::random(random, most),
        }
    }
}

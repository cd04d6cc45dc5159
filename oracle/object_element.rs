//! Object elements: timings, then what each object does in each block.

use crate::assignment::{write_bytes, Assignment};
use crate::bits::Bits;
use crate::context as c;
use crate::random::Random;

/// What the objects of one payload lean to, so that payloads differ as wholes.
struct Manner {
    /// Inactive blocks in sixteen.
    inactive: u32,
    /// The differential step that is repeated; repeated steps reach the ends of the range.
    drift: Option<u32>,
    table_data_once_in: u32,
}

const LARGEST_STEP: u32 = 0b011;
const SMALLEST_STEP: u32 = 0b100;

impl Manner {
    fn random(random: &mut Random, busy: bool) -> Self {
        Manner {
            inactive: random.pick(&[0, 3, 6, 12]),
            drift: random.pick(&[None, None, Some(LARGEST_STEP), Some(SMALLEST_STEP)]),
            table_data_once_in: if busy { 6 } else { 40 },
        }
    }
}

pub fn write(bits: &mut Bits, random: &mut Random, assignment: &Assignment, busy: bool) {
    write_sample_offset(bits, random);
    let blocks = write_timings(bits, random);
    if !bits.flag(!random.once_in(4), c::RESERVED_DATA_NOT_PRESENT_FLAG) {
        bits.put(0, 5, c::OBJECT_ELEMENT_RESERVED_DATA);
    }
    let manner = Manner::random(random, busy);
    for object in 0..assignment.objects() {
        let dynamic = object >= assignment.fixed_objects();
        for block in 0..blocks {
            write_order(bits, random, &manner, dynamic, block == 0);
        }
    }
}

fn write_sample_offset(bits: &mut Bits, random: &mut Random) {
    let code = random.below(3);
    bits.put(code, 2, c::SAMPLE_OFFSET_CODE);
    match code {
        1 => bits.put(random.below(4), 2, c::SAMPLE_OFFSET_INDEX),
        2 => bits.put(random.below(32), 5, c::SAMPLE_OFFSET),
        _ => {}
    }
}

/// Gives back the count of blocks.
fn write_timings(bits: &mut Bits, random: &mut Random) -> u32 {
    let blocks = random
        .pick(&[1, 1, 1, 2, 2, 3, 4, 8])
        .min(random.between(1, 8));
    bits.put(blocks - 1, 3, c::UPDATE_BLOCK_COUNT);
    // Half of the payloads have starts that never fall, as real ones do.
    let orderly = random.flag();
    let mut factor = 0;
    for _ in 0..blocks {
        factor = if orderly {
            (factor + random.below(16)).min(63)
        } else {
            random.below(64)
        };
        bits.put(factor, 6, c::BLOCK_OFFSET_FACTOR);
        write_ramp(bits, random);
    }
    blocks
}

fn write_ramp(bits: &mut Bits, random: &mut Random) {
    let code = random.below(4);
    bits.put(code, 2, c::RAMP_DURATION_CODE);
    if code < 3 {
        return;
    }
    if bits.flag(random.flag(), c::INDEXED_RAMP_DURATION_FLAG) {
        bits.put(random.below(16), 4, c::RAMP_DURATION_INDEX);
    } else {
        bits.put(random.below(2048), 11, c::RAMP_DURATION);
    }
}

fn write_order(bits: &mut Bits, random: &mut Random, manner: &Manner, dynamic: bool, first: bool) {
    let inactive = random.below(16) < manner.inactive;
    if !bits.flag(inactive, c::OBJECT_NOT_ACTIVE_FLAG) {
        write_basic(bits, random, first);
        if dynamic {
            write_render(bits, random, manner, first);
        }
    }
    let table_data = random.once_in(manner.table_data_once_in);
    if bits.flag(table_data, c::ADDITIONAL_TABLE_DATA_FLAG) {
        let contexts = [c::ADDITIONAL_TABLE_DATA_SIZE, c::ADDITIONAL_TABLE_DATA];
        write_bytes(bits, random, contexts);
    }
}

/// A status in 2 bits; in the first block it is 1 and not said.
fn write_status(bits: &mut Bits, random: &mut Random, first: bool, context: u8) -> u32 {
    if first {
        return 1;
    }
    let status = random.pick(&[0, 1, 1, 2, 3, 3]);
    bits.put(status, 2, context);
    status
}

/// Which parts a status brings; status 3 says so by flags.
fn write_flags(
    bits: &mut Bits,
    random: &mut Random,
    status: u32,
    width: usize,
    context: u8,
) -> u32 {
    let all = (1 << width) - 1;
    match status {
        1 => all,
        3 => {
            let flags = random.between(0, all);
            bits.put(flags, width, context);
            flags
        }
        _ => 0,
    }
}

fn write_basic(bits: &mut Bits, random: &mut Random, first: bool) {
    let status = write_status(bits, random, first, c::BASIC_INFO_STATUS);
    let flags = write_flags(bits, random, status, 2, c::MIXED_BASIC_INFO_FLAGS);
    if flags & 2 != 0 {
        let code = random.below(4);
        bits.put(code, 2, c::OBJECT_GAIN_INDEX);
        if code == 2 {
            let edge = random.pick(&[0, 14, 15, 63]);
            let word = if random.once_in(4) {
                edge
            } else {
                random.below(64)
            };
            bits.put(word, 6, c::OBJECT_GAIN);
        }
    }
    if flags & 1 != 0 && !bits.flag(random.flag(), c::DEFAULT_OBJECT_PRIORITY_FLAG) {
        bits.put(random.below(32), 5, c::OBJECT_PRIORITY);
    }
}

fn write_render(bits: &mut Bits, random: &mut Random, manner: &Manner, first: bool) {
    let status = write_status(bits, random, first, c::RENDER_INFO_STATUS);
    let flags = write_flags(bits, random, status, 4, c::MIXED_RENDER_INFO_FLAGS);
    if flags & 8 != 0 {
        write_position(bits, random, manner, first);
    }
    if flags & 4 != 0 {
        bits.put(random.below(6), 3, c::ZONE_CONSTRAINTS_INDEX);
        bits.flag(random.flag(), c::ELEVATION_ENABLED_FLAG);
    }
    if flags & 2 != 0 {
        write_size(bits, random);
    }
    if flags & 1 != 0 && bits.flag(random.flag(), c::SCREEN_REFERENCE_FLAG) {
        bits.put(random.below(8), 3, c::SCREEN_FACTOR);
        bits.put(random.below(4), 2, c::DEPTH_FACTOR_INDEX);
    }
    if status & 1 != 0 {
        bits.flag(random.flag(), c::OBJECT_SNAP_FLAG);
    }
}

fn write_position(bits: &mut Bits, random: &mut Random, manner: &Manner, first: bool) {
    let differential = !first && random.below(5) < 3;
    if !first {
        bits.flag(differential, c::DIFFERENTIAL_POSITION_FLAG);
    }
    if differential {
        for context in [c::DIFFERENTIAL_X, c::DIFFERENTIAL_Y, c::DIFFERENTIAL_Z] {
            let step = manner.drift.unwrap_or_else(|| random.below(8));
            bits.put(step, 3, context);
        }
    } else {
        let coordinate = |random: &mut Random| random.pick(&[0, 1, 61, 62, 63]);
        for context in [c::POSITION_X, c::POSITION_Y] {
            let value = if random.flag() {
                coordinate(random)
            } else {
                random.below(64)
            };
            bits.put(value, 6, context);
        }
        bits.flag(random.flag(), c::POSITION_Z_SIGN);
        let height = if random.flag() {
            random.pick(&[0, 1, 14, 15])
        } else {
            random.below(16)
        };
        bits.put(height, 4, c::POSITION_Z);
    }
    write_distance(bits, random);
}

fn write_distance(bits: &mut Bits, random: &mut Random) {
    if bits.flag(random.once_in(3), c::OBJECT_DISTANCE_SPECIFIED_FLAG)
        && !bits.flag(random.flag(), c::OBJECT_AT_INFINITY_FLAG)
    {
        bits.put(random.below(16), 4, c::DISTANCE_FACTOR_INDEX);
    }
}

fn write_size(bits: &mut Bits, random: &mut Random) {
    let code = random.below(3);
    bits.put(code, 2, c::OBJECT_SIZE_INDEX);
    let sizes: &[u8] = match code {
        0 => &[],
        1 => &[c::OBJECT_SIZE],
        _ => &[c::OBJECT_WIDTH, c::OBJECT_DEPTH, c::OBJECT_HEIGHT],
    };
    for &context in sizes {
        bits.put(random.below(32), 5, context);
    }
}

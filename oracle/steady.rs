//! A programme as rooms play it: frames of one shape, of which only values move.

use crate::bits::{Bits, Field};
use crate::context as c;
use crate::generator::written_of;
use crate::random::Random;

/// Fields that say how much, and never what follows them. Each may have every value of its width.
const VALUES: [u8; 12] = [
    c::OBJECT_GAIN,
    c::OBJECT_PRIORITY,
    c::POSITION_X,
    c::POSITION_Y,
    c::POSITION_Z,
    c::DIFFERENTIAL_X,
    c::DIFFERENTIAL_Y,
    c::DIFFERENTIAL_Z,
    c::OBJECT_SIZE,
    c::OBJECT_WIDTH,
    c::OBJECT_DEPTH,
    c::OBJECT_HEIGHT,
];

/// So many frames, the first of them one that `fits`. Between two frames each value moves by 1 or stays.
pub fn programme(
    random: &mut Random,
    objects: u32,
    frames: usize,
    fits: impl Fn(&[u8]) -> bool,
) -> Vec<Vec<u8>> {
    let mut frame = written_of(random, objects);
    while !fits(frame.bytes()) {
        frame = written_of(random, objects);
    }
    let fields: Vec<Field> = VALUES
        .iter()
        .flat_map(|&context| frame.fields_of(context).copied())
        .collect();
    (0..frames)
        .map(|_| {
            let written = frame.bytes().to_vec();
            for field in &fields {
                frame.overwrite(field.place, field.width, moved(random, &frame, field));
            }
            written
        })
        .collect()
}

fn moved(random: &mut Random, frame: &Bits, field: &Field) -> u32 {
    let largest = (1 << field.width) - 1;
    (frame.value(field) + random.below(3)).clamp(1, largest + 1) - 1
}

//! What is timed: drawn payloads, the largest, a steady programme, and some that are refused late.

use oracle::generator::payload_of;
use oracle::oamd::{OamdDecoder, OamdFrame, OamdUpdateBlock};
use oracle::random::Random;
use oracle::steady;
use oracle::tables::{MOST_BLOCKS, MOST_OBJECTS};

pub struct Case {
    pub name: &'static str,
    pub payloads: Vec<Vec<u8>>,
    /// Whether the proved decoder may not be slower here.
    pub must_hold: bool,
}

const TYPICAL_OBJECTS: u32 = 16;

const STEADY_OBJECTS: u32 = 32;
const STEADY_BLOCKS: usize = 2;
const STEADY_FRAMES: usize = 1_000;

pub fn all() -> Vec<Case> {
    let mut random = Random::new(1);
    let typical = drawn(&mut random, TYPICAL_OBJECTS, 1, 4, 64);
    let heavy = drawn(
        &mut random,
        MOST_OBJECTS as u32,
        MOST_BLOCKS,
        MOST_BLOCKS,
        16,
    );
    let late = typical
        .iter()
        .map(|payload| refused_late(payload))
        .collect();
    let heavy_late = heavy.iter().map(|payload| refused_late(payload)).collect();
    let steady = steady::programme(&mut random, STEADY_OBJECTS, STEADY_FRAMES, is_steady);
    assert!(
        steady.iter().all(|frame| is_steady(frame)),
        "values change no shape"
    );
    vec![
        case("typical: 16 objects, 1 to 4 blocks", typical, true),
        case("heavy: 128 objects, 8 blocks", heavy, true),
        case("steady: 1,000 frames of 32 objects, 2 blocks", steady, true),
        case("typical, refused in its last byte", late, false),
        case("heavy, refused in its last byte", heavy_late, false),
    ]
}

fn case(name: &'static str, payloads: Vec<Vec<u8>>, must_hold: bool) -> Case {
    Case {
        name,
        payloads,
        must_hold,
    }
}

/// Accepted payloads of so many objects and from `least` to `most` blocks.
fn drawn(
    random: &mut Random,
    objects: u32,
    least: usize,
    most: usize,
    count: usize,
) -> Vec<Vec<u8>> {
    let mut payloads = Vec::new();
    while payloads.len() < count {
        let payload = payload_of(random, objects);
        if decoded(&payload).is_some_and(|frame| (least..=most).contains(&frame.updates.len())) {
            payloads.push(payload);
        }
    }
    payloads
}

fn decoded(payload: &[u8]) -> Option<OamdFrame> {
    OamdDecoder::default().decode(payload).ok()
}

/// Every object is heard from the first block on, as in a programme under way.
fn is_steady(payload: &[u8]) -> bool {
    decoded(payload).is_some_and(|frame| {
        let active = |update: &OamdUpdateBlock| update.objects.iter().all(|object| object.active);
        frame.updates.len() == STEADY_BLOCKS && frame.updates.iter().all(active)
    })
}

/// The payload with a byte behind it that is not zero, where only padding may stand.
fn refused_late(payload: &[u8]) -> Vec<u8> {
    let mut longer = payload.to_vec();
    longer.push(1);
    assert!(decoded(&longer).is_none(), "padding is not zero");
    longer
}

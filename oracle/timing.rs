//! The timing test and the choice of rows at a sample, by the rules cut from joc_renderer.rs.

use crate::oamd::{OamdFrame, OamdObjectKind, OamdObjectState, OamdTiming, OamdUpdateBlock};
use crate::renderer_rules::{stereo_gains_at, update_ordering, validate_oamd_timing};

/// The two cases of the renderer's error that the cut rules make.
pub enum JocRenderError {
    Invalid(&'static str),
    Unsupported(&'static str),
}

/// Rows by number: 0 the start row, b + 1 block b. The fraction is an f32, by its bits.
#[derive(Clone, Copy, Debug, PartialEq, Eq)]
pub struct Choice {
    pub from: i16,
    pub to: i16,
    pub fraction: u32,
}

/// Stands in for the panning: it hands back what was chosen.
pub fn stereo_gains(from: &OamdObjectState, to: &OamdObjectState, alpha: f32) -> Choice {
    Choice {
        from: from.raw_position[0],
        to: to.raw_position[0],
        fraction: alpha.to_bits(),
    }
}

/// 0, or 8 ordering, 9 overlap, 10 cross-frame.
pub fn timing_number(timings: &[[u16; 2]]) -> u8 {
    let frame = frame(timings);
    match update_ordering(&frame).and_then(|()| validate_oamd_timing(&frame)) {
        Ok(()) => 0,
        Err(JocRenderError::Invalid("OAMD update ordering")) => 8,
        Err(JocRenderError::Unsupported("overlapping OAMD ramps")) => 9,
        Err(JocRenderError::Unsupported("cross-frame OAMD ramp")) => 10,
        Err(JocRenderError::Invalid(text) | JocRenderError::Unsupported(text)) => {
            panic!("no number for: {text}")
        }
    }
}

pub fn ramp_choice(timings: &[[u16; 2]], sample: usize) -> Choice {
    stereo_gains_at(&frame(timings), 0, sample)
}

/// The specification's walk: the Rust gives the fraction alone.
pub fn elapsed_and_duration(timings: &[[u16; 2]], sample: u32) -> [u32; 2] {
    for &[start, ramp] in timings {
        let (start, ramp) = (u32::from(start), u32::from(ramp));
        if start > sample {
            break;
        }
        if sample - start < ramp {
            return [sample - start, ramp];
        }
    }
    [1, 1]
}

/// A frame of one object whose rows bear their numbers.
fn frame(timings: &[[u16; 2]]) -> OamdFrame {
    let updates = timings
        .iter()
        .zip(1..)
        .map(|(&[start_sample, ramp_duration], number)| OamdUpdateBlock {
            timing: OamdTiming {
                start_sample,
                ramp_duration,
            },
            objects: vec![numbered(number)],
        });
    OamdFrame {
        kinds: vec![OamdObjectKind::Dynamic],
        starting_objects: vec![numbered(0)],
        updates: updates.collect(),
    }
}

fn numbered(number: i16) -> OamdObjectState {
    OamdObjectState {
        active: true,
        gain_db: None,
        priority: 0.0,
        position: [0.0; 3],
        size: [0.0; 3],
        screen_reference: false,
        channel_lock: false,
        zone_constraints: 0,
        elevation_enabled: true,
        raw_position: [number, 0, 0],
    }
}

//! Rows of whole numbers, from the decoder's floats and the distances beside it.

use crate::oamd::{OamdObjectKind, OamdObjectState};
use crate::tables::{ACTIVE, DEPTH, ELEVATION, GAIN, HEIGHT, KIND, LOCK, MARK, PRIORITY, SCREEN};
use crate::tables::{DYNAMIC, HEIGHT_LIMIT, PRIORITY_LIMIT, SIDE_LIMIT, SILENCE, SIZE_LIMIT};
use crate::tables::{WIDTH, X, Y, Z, ZONE};

/// The numbers of a row before its mark.
pub type Row = [i16; MARK];

pub fn unmarked(row: &[i16]) -> Row {
    row[..MARK].try_into().expect("a whole row")
}

const KINDS: [OamdObjectKind; 4] = [
    OamdObjectKind::Lfe,
    OamdObjectKind::Bed,
    OamdObjectKind::Isf,
    OamdObjectKind::Dynamic,
];

pub fn kind_number(kind: OamdObjectKind) -> i16 {
    match kind {
        OamdObjectKind::Lfe => 0,
        OamdObjectKind::Bed => 1,
        OamdObjectKind::Isf => 2,
        OamdObjectKind::Dynamic => DYNAMIC,
    }
}

pub fn rows(
    kinds: &[OamdObjectKind],
    states: &[OamdObjectState],
    distances: &[i16],
) -> Vec<Row> {
    assert_eq!(kinds.len(), states.len(), "one state for each kind");
    assert_eq!(kinds.len(), distances.len(), "and one distance");
    let known = kinds.iter().zip(states).zip(distances);
    known
        .map(|((&kind, state), &distance)| row(kind, state, distance))
        .collect()
}

fn row(kind: OamdObjectKind, state: &OamdObjectState, distance: i16) -> Row {
    assert_eq!(
        state.position,
        shown_position(kind, state.raw_position),
        "the floats say the raw place"
    );
    let [x, y, z] = state.raw_position;
    let [width, depth, height] = state.size.map(|size| parts(size, SIZE_LIMIT));
    [
        kind_number(kind),
        i16::from(state.active),
        state.gain_db.map_or(SILENCE, |decibels| parts(decibels, 1)),
        parts(state.priority, PRIORITY_LIMIT),
        x,
        y,
        z,
        width,
        depth,
        height,
        i16::from(state.screen_reference),
        i16::from(state.channel_lock),
        i16::from(state.zone_constraints),
        i16::from(state.elevation_enabled),
        distance,
    ]
}

/// The kind and the state that a row in form says; the state has no distance.
pub fn kind_and_state(row: &Row) -> (OamdObjectKind, OamdObjectState) {
    let kind = KINDS[row[KIND] as usize];
    let raw_position = [row[X], row[Y], row[Z]];
    let size = [row[WIDTH], row[DEPTH], row[HEIGHT]];
    let state = OamdObjectState {
        active: row[ACTIVE] == 1,
        gain_db: (row[GAIN] != SILENCE).then(|| f32::from(row[GAIN])),
        priority: part(row[PRIORITY], PRIORITY_LIMIT),
        position: shown_position(kind, raw_position),
        size: size.map(|size| part(size, SIZE_LIMIT)),
        screen_reference: row[SCREEN] == 1,
        channel_lock: row[LOCK] == 1,
        zone_constraints: row[ZONE] as u8,
        elevation_enabled: row[ELEVATION] == 1,
        raw_position,
    };
    (kind, state)
}

/// The specification, section 11, "Floats": what a row's raw place is shown as.
fn shown_position(kind: OamdObjectKind, raw: [i16; 3]) -> [f32; 3] {
    if kind == OamdObjectKind::Lfe {
        return [-1.0, 1.0, -1.0];
    }
    let [x, y, z] = raw;
    [
        part(x, SIDE_LIMIT),
        part(y, SIDE_LIMIT),
        part(z, HEIGHT_LIMIT),
    ]
}

/// One f32 division.
fn part(number: i16, whole: i16) -> f32 {
    f32::from(number) / f32::from(whole)
}

/// The whole number whose one f32 division by `whole` gives the value.
fn parts(value: f32, whole: i16) -> i16 {
    let number = (value * f32::from(whole)).round() as i16;
    assert_eq!(part(number, whole), value, "a whole number of parts");
    number
}

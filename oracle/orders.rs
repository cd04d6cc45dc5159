//! What an accepted payload orders for each object in each block, from what the noting decoder read.

use crate::context as c;
use crate::notes::Note;
use crate::tables::INFINITY;

#[derive(Clone, Copy, Debug, PartialEq, Eq)]
pub enum Position {
    Absolute,
    Differential,
}

/// What the Rust reads behind a position, and drops.
#[derive(Clone, Copy, Debug, PartialEq, Eq)]
pub enum Distance {
    Unspecified,
    Factor(u32),
    Infinity,
}

impl Distance {
    /// As a row holds it.
    pub fn number(self) -> i16 {
        match self {
            Distance::Unspecified => 0,
            Distance::Factor(index) => index as i16 + 1,
            Distance::Infinity => INFINITY,
        }
    }
}

/// One object in one block. A status or code that the payload does not say is none.
#[derive(Clone, Copy, Debug, Default, PartialEq, Eq)]
pub struct Order {
    pub active: bool,
    pub basic_status: Option<u32>,
    pub gain_code: Option<u32>,
    pub render_status: Option<u32>,
    pub position: Option<Position>,
    pub distance: Option<Distance>,
    pub zone: bool,
    pub size: bool,
    pub screen: bool,
    pub lock: bool,
}

impl Order {
    fn hear(&mut self, note: &Note, payload: &[u8]) {
        match note.context() {
            c::BASIC_INFO_STATUS => self.basic_status = Some(note.value(payload)),
            c::OBJECT_GAIN_INDEX => self.gain_code = Some(note.value(payload)),
            c::RENDER_INFO_STATUS => self.render_status = Some(note.value(payload)),
            c::POSITION_X => self.position = Some(Position::Absolute),
            c::DIFFERENTIAL_X => self.position = Some(Position::Differential),
            // Each part of a distance is read only where the one before it left more to say.
            c::OBJECT_DISTANCE_SPECIFIED_FLAG => self.distance = Some(Distance::Unspecified),
            c::OBJECT_AT_INFINITY_FLAG => self.distance = Some(Distance::Infinity),
            c::DISTANCE_FACTOR_INDEX => self.distance = Some(Distance::Factor(note.value(payload))),
            c::ZONE_CONSTRAINTS_INDEX => self.zone = true,
            c::OBJECT_SIZE_INDEX => self.size = true,
            c::SCREEN_REFERENCE_FLAG => self.screen = true,
            c::OBJECT_SNAP_FLAG => self.lock = true,
            _ => {}
        }
    }
}

/// Object by object, block by block: the activity flag opens each order.
pub fn orders(notes: &[Note], payload: &[u8]) -> Vec<Order> {
    let mut found: Vec<Order> = Vec::new();
    for note in notes {
        if note.context() == c::OBJECT_NOT_ACTIVE_FLAG {
            found.push(Order {
                active: note.value(payload) == 0,
                ..Order::default()
            });
        } else if let Some(order) = found.last_mut() {
            order.hear(note, payload);
        }
    }
    found
}

/// What each object has in each block, from its start on: in block b, object o at b x objects + o.
pub fn followed<T: Copy>(
    start: &[T],
    blocks: usize,
    orders: &[Order],
    next: impl Fn(usize, T, &Order) -> T,
) -> Vec<T> {
    let objects = start.len();
    assert_eq!(orders.len(), objects * blocks, "an order for each row");
    let mut rows = Vec::with_capacity(orders.len());
    let mut held = start.to_vec();
    for block in 0..blocks {
        for (object, held) in held.iter_mut().enumerate() {
            *held = next(object, *held, &orders[object * blocks + block]);
            rows.push(*held);
        }
    }
    rows
}

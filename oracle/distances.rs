//! The specification's distance as a small model: the Rust reads its three parts, and drops them.

use crate::orders::{followed, Distance, Order, Position};
use crate::row::Row;
use crate::tables::{DISTANCE, INFINITY, KIND};

/// A wrong reading of the specification, for the test that a comparison with this model can fail.
#[derive(Clone, Copy, Debug, PartialEq, Eq)]
pub enum Mistake {
    IndexAlone,
    InfinityIsAFactor,
    UnspecifiedKeeps,
    StepsKeep,
    AbsoluteKeeps,
    InactiveForgets,
    StatusZeroKeeps,
    StatusTwoForgets,
    OtherGroupsForget,
    EqualKindsForget,
    ChangedKindsKeep,
}

pub const MISTAKES: [Mistake; 11] = [
    Mistake::IndexAlone,
    Mistake::InfinityIsAFactor,
    Mistake::UnspecifiedKeeps,
    Mistake::StepsKeep,
    Mistake::AbsoluteKeeps,
    Mistake::InactiveForgets,
    Mistake::StatusZeroKeeps,
    Mistake::StatusTwoForgets,
    Mistake::OtherGroupsForget,
    Mistake::EqualKindsForget,
    Mistake::ChangedKindsKeep,
];

/// What is retained of distances, by object.
#[derive(Clone, Debug, Default)]
pub struct Distances {
    kinds: Vec<i16>,
    pub held: Vec<i16>,
    pub mistake: Option<Mistake>,
}

/// The distances of an accepted frame: of each object, and of block b, object o at b x objects + o.
pub struct FrameDistances {
    pub start: Vec<i16>,
    pub blocks: Vec<i16>,
}

impl Distances {
    pub fn forget(&mut self) {
        self.kinds.clear();
        self.held.clear();
    }

    /// Retains those of rows in form.
    pub fn plant(&mut self, rows: &[Row]) {
        self.kinds = rows.iter().map(|row| row[KIND]).collect();
        self.held = rows.iter().map(|row| row[DISTANCE]).collect();
    }

    /// The orders stand object by object, block by block.
    pub fn accept(&mut self, kinds: &[i16], blocks: usize, orders: &[Order]) -> FrameDistances {
        let start = self.start(kinds);
        let rows = followed(&start, blocks, orders, |_, before, order| {
            self.after(before, order)
        });
        self.held = rows[kinds.len() * (blocks - 1)..].to_vec();
        self.kinds = kinds.to_vec();
        FrameDistances {
            start,
            blocks: rows,
        }
    }

    fn start(&self, kinds: &[i16]) -> Vec<i16> {
        let equal = self.kinds == kinds && !self.has(Mistake::EqualKindsForget);
        let as_many = self.kinds.len() == kinds.len();
        if equal || as_many && self.has(Mistake::ChangedKindsKeep) {
            self.held.clone()
        } else {
            vec![0; kinds.len()]
        }
    }

    /// A position sets it, a render status 0 ends it, and all else keeps it.
    fn after(&self, before: i16, order: &Order) -> i16 {
        let keeps = match order.position {
            Some(Position::Absolute) => self.has(Mistake::AbsoluteKeeps),
            Some(Position::Differential) => self.has(Mistake::StepsKeep),
            None => true,
        };
        let forgets = !order.active && self.has(Mistake::InactiveForgets)
            || order.render_status == Some(0) && !self.has(Mistake::StatusZeroKeeps)
            || order.render_status == Some(2) && self.has(Mistake::StatusTwoForgets)
            || order.position.is_none() && order.zone && self.has(Mistake::OtherGroupsForget);
        match order.distance {
            _ if forgets => 0,
            Some(distance) if !keeps => self.number(distance, before),
            _ => before,
        }
    }

    fn number(&self, distance: Distance, before: i16) -> i16 {
        match distance {
            Distance::Unspecified if self.has(Mistake::UnspecifiedKeeps) => before,
            Distance::Factor(index) if self.has(Mistake::IndexAlone) => index as i16,
            Distance::Infinity if self.has(Mistake::InfinityIsAFactor) => INFINITY - 1,
            _ => distance.number(),
        }
    }

    fn has(&self, mistake: Mistake) -> bool {
        self.mistake == Some(mistake)
    }
}

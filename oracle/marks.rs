//! The specification's "Marks and doubt" as a small model: the Rust decoder has no marks.

use crate::call::Call;
use crate::mark_mistakes::Mistake;
use crate::orders::{followed, Order, Position};
use crate::tables::{ALL_SETTLED, DYNAMIC, GROUP_BITS, NONE_SETTLED};
use crate::tables::{LOCK_BIT, POSITION_BIT, SCREEN_BIT, SIZE_BIT, ZONE_BIT};

/// What is retained of marks, by object.
#[derive(Clone, Debug, Default)]
pub struct Marks {
    pub doubt: bool,
    pub kinds: Vec<i16>,
    pub marks: Vec<i16>,
    pub mistake: Option<Mistake>,
}

/// The marks of an accepted frame: of each object, and of block b, object o at b x objects + o.
pub struct FrameMarks {
    pub start: Vec<i16>,
    pub blocks: Vec<i16>,
    /// How many rows of the last block are unsettled.
    pub unsettled: u32,
}

impl Marks {
    pub fn call(&mut self, call: Call) {
        if call != Call::Gap {
            self.kinds.clear();
            self.marks.clear();
        }
        self.doubt = match call {
            Call::Start => self.has(Mistake::StartLeavesDoubt),
            Call::Reset => !self.has(Mistake::ResetClearsDoubt),
            Call::Gap => true,
        };
    }

    pub fn refuse(&mut self) {
        if self.has(Mistake::RefusalClearsDoubt) {
            self.doubt = false;
        }
    }

    /// The orders stand object by object, block by block.
    pub fn accept(&mut self, kinds: &[i16], blocks: usize, orders: &[Order]) -> FrameMarks {
        let objects = kinds.len();
        let start = self.start(kinds);
        let rows = followed(&start, blocks, orders, |object, before, order| {
            self.after(kinds[object], before, order)
        });
        let last = objects * (blocks - 1);
        let first = self.has(Mistake::FirstBlockIsKept);
        let kept = if first { 0 } else { last };
        self.marks = rows[kept..kept + objects].to_vec();
        self.kinds = kinds.to_vec();
        self.doubt &= self.has(Mistake::DoubtKept);
        FrameMarks {
            start,
            unsettled: rows[last..].iter().map(|&mark| self.counted(mark)).sum(),
            blocks: rows,
        }
    }

    fn start(&self, kinds: &[i16]) -> Vec<i16> {
        let equal = self.kinds == kinds;
        let trusted = !equal && self.has(Mistake::ChangedKindsSettleInDoubt);
        if self.doubt && !trusted && !self.has(Mistake::DoubtIgnored) {
            return kinds.iter().map(|&kind| self.doubted(kind)).collect();
        }
        let mark = match self.mistake {
            Some(Mistake::ChangedKindsUnsettle) if !equal => NONE_SETTLED,
            Some(Mistake::EqualKindsSettle) => ALL_SETTLED,
            _ if equal => return self.marks.clone(),
            _ => ALL_SETTLED,
        };
        vec![mark; kinds.len()]
    }

    /// The mark of a start row in doubt.
    fn doubted(&self, kind: i16) -> i16 {
        match self.mistake {
            Some(Mistake::DoubtSettles) => ALL_SETTLED,
            Some(Mistake::FixedSettledInDoubt) if kind != DYNAMIC => ALL_SETTLED,
            _ => NONE_SETTLED,
        }
    }

    /// The mark of an object in a block, after that of the row before.
    fn after(&self, kind: i16, before: i16, order: &Order) -> i16 {
        if kind != DYNAMIC {
            let kept = self.has(Mistake::FixedKeepTheStartMark);
            return if kept { before } else { ALL_SETTLED };
        }
        let settled = self.settled(order);
        let mark = self.kept(before, order, settled) | settled;
        let four = mark.count_ones() == 4 && self.has(Mistake::FourGroupsSettleAll);
        if four {
            ALL_SETTLED
        } else {
            mark
        }
    }

    /// What stays of the mark before: rightly all of it.
    fn kept(&self, before: i16, order: &Order, settled: i16) -> i16 {
        let moved = order.position == Some(Position::Differential);
        match self.mistake {
            Some(Mistake::InactiveUnsettles) if !order.active => NONE_SETTLED,
            Some(Mistake::GroupsDoNotAddUp) if settled != NONE_SETTLED => NONE_SETTLED,
            Some(Mistake::DifferentialUnsettles) if moved => before & !POSITION_BIT,
            _ => before,
        }
    }

    /// The groups that an order settles, whatever was before.
    fn settled(&self, order: &Order) -> i16 {
        let read = self.read(order);
        match (self.mistake, order.render_status) {
            (Some(Mistake::StatusZeroSettlesNothing), Some(0)) => NONE_SETTLED,
            (Some(Mistake::StatusZeroSettlesPosition), Some(0)) => POSITION_BIT,
            (Some(Mistake::StatusTwoSettles), Some(2)) => ALL_SETTLED,
            (_, Some(0)) => ALL_SETTLED,
            (Some(Mistake::OneGroupSettlesAll), _) if read != NONE_SETTLED => ALL_SETTLED,
            (Some(Mistake::AllGroupsOrNone), _) if read != ALL_SETTLED => NONE_SETTLED,
            (Some(Mistake::BitsReversed), _) => reversed(read),
            _ => read,
        }
    }

    /// The groups that are read anew; a differential position is none.
    fn read(&self, order: &Order) -> i16 {
        let position = match order.position {
            Some(Position::Absolute) => true,
            Some(Position::Differential) => self.has(Mistake::DifferentialSettles),
            None => false,
        };
        let zone_bit = match self.mistake {
            Some(Mistake::ElevationLeavesTheZone) => NONE_SETTLED,
            Some(Mistake::ZoneSettlesSize) => SIZE_BIT,
            _ => ZONE_BIT,
        };
        let groups = [
            (position, POSITION_BIT),
            (order.zone, zone_bit),
            (order.size, SIZE_BIT),
            (order.screen, SCREEN_BIT),
            (self.reads_lock(order), LOCK_BIT),
        ];
        let read = groups.into_iter().filter(|(read, _)| *read);
        read.fold(NONE_SETTLED, |mark, (_, bit)| mark | bit)
    }

    /// Whether the lock counts as read: rightly wherever its flag is, which is at each render status 1 and 3.
    fn reads_lock(&self, order: &Order) -> bool {
        let every = order.position.is_some() && order.zone && order.size && order.screen;
        match self.mistake {
            Some(Mistake::LockNeedsEveryGroup) => order.lock && every,
            Some(Mistake::LockNeedsStatusOne) => order.lock && order.render_status != Some(3),
            Some(Mistake::LockSettlesNothing) => false,
            _ => order.lock,
        }
    }

    /// What a row of the last block adds to the unsettled count.
    fn counted(&self, mark: i16) -> u32 {
        match self.mistake {
            Some(Mistake::NoneSettledAloneCounts) => u32::from(mark == NONE_SETTLED),
            Some(Mistake::GroupsAreCounted) => (ALL_SETTLED ^ mark).count_ones(),
            _ => u32::from(mark != ALL_SETTLED),
        }
    }

    fn has(&self, mistake: Mistake) -> bool {
        self.mistake == Some(mistake)
    }
}

/// The mark with its bits in the reverse order.
pub fn reversed(mark: i16) -> i16 {
    let bits = GROUP_BITS.into_iter().zip(GROUP_BITS.into_iter().rev());
    let set = bits.filter(|(bit, _)| mark & bit != 0);
    set.fold(NONE_SETTLED, |mark, (_, other)| mark | other)
}

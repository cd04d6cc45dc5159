//! The mark rule, held against the marks that the proved decoder wrote of an accepted frame.
//!
//! From an object's start row through its blocks no bit falls. Without a warning since the last programme start
//! all rows are settled; where every Dynamic object is active in the first block, all block rows are.

use crate::difference::{number, Difference};
use crate::proved::Tables;
use oracle::listener::Said;
use oracle::tables::{ACTIVE, DYNAMIC, KIND, MARK, ROW_WIDTH};
use oracle::tables::{ALL_SETTLED, GROUP_BITS, NONE_SETTLED};
use std::ops::Range;

#[derive(Default)]
pub struct MarkRule {
    /// To be planted among the marks, once.
    pub lapse: Option<Lapse>,
}

/// What one part of the rule forbids, and the others do not see.
#[derive(Clone, Copy, Debug, PartialEq, Eq)]
pub enum Lapse {
    /// A bit is set in a start row, and not in the first block.
    FallsAtFirst(i16),
    /// A bit is set in a block, and not in the next.
    FallsLater(i16),
    /// A bit is nowhere set, and no warning came.
    Unwarned(i16),
    /// A bit is nowhere set, and every Dynamic object is active in the first block.
    Told(i16),
    Miscounted,
}

/// What was written of a frame.
struct Written {
    objects: usize,
    /// Of the start rows, then of each block.
    marks: Vec<i16>,
    unsettled: u32,
    /// Whether a gap notice or a reset came since the last programme start.
    warned: bool,
    /// Whether every Dynamic object is active in the first block.
    told: bool,
}

impl MarkRule {
    pub fn check(&mut self, said: &Said, tables: &Tables, warned: bool) -> Result<(), Difference> {
        let mut written = Written::new(said, tables, warned);
        self.lapse.take_if(|lapse| lapse.plant(&mut written));
        written.check_rise()?;
        written.check_settled()?;
        number("rows unsettled", written.counted(), written.unsettled)
    }
}

impl Written {
    fn new(said: &Said, tables: &Tables, warned: bool) -> Self {
        let objects = said.objects as usize;
        let start = tables.start.chunks(ROW_WIDTH).take(objects);
        let blocks = tables.blocks.chunks(ROW_WIDTH);
        let rows = start.chain(blocks.clone().take(objects * said.blocks as usize));
        let told = |row: &[i16]| row[KIND] != DYNAMIC || row[ACTIVE] == 1;
        Written {
            objects,
            marks: rows.map(|row| row[MARK]).collect(),
            unsettled: said.unsettled,
            warned,
            told: blocks.take(objects).all(told),
        }
    }

    fn check_rise(&self) -> Result<(), Difference> {
        let pairs = self.marks.iter().zip(&self.marks[self.objects..]);
        let mut fallen = pairs.map(|(before, after)| before & !after);
        fallen.try_for_each(|bits| number("bits that fall", NONE_SETTLED, bits))
    }

    fn check_settled(&self) -> Result<(), Difference> {
        let sure = match (self.warned, self.told) {
            (false, _) => 0..self.marks.len(),
            (true, true) => self.objects..self.marks.len(),
            (true, false) => 0..0,
        };
        let mut sure = self.marks[sure].iter();
        sure.try_for_each(|&mark| number("mark by the mark rule", ALL_SETTLED, mark))
    }

    /// How many rows of the last block are unsettled.
    fn counted(&self) -> u32 {
        let last = &self.marks[self.marks.len() - self.objects..];
        last.iter().filter(|&&mark| mark != ALL_SETTLED).count() as u32
    }

    /// Takes a bit from the first of these marks that has it as the row before does.
    fn drop_bit(&mut self, at: Range<usize>, bit: i16) -> bool {
        let both = |at: &usize| self.marks[*at] & self.marks[at - self.objects] & bit != 0;
        let found = at.into_iter().find(both);
        found.map(|at| self.marks[at] &= !bit).is_some()
    }
}

impl Lapse {
    pub fn all() -> Vec<Lapse> {
        let sorts = [
            Lapse::FallsAtFirst,
            Lapse::FallsLater,
            Lapse::Unwarned,
            Lapse::Told,
        ];
        let bits = |sort: fn(i16) -> Lapse| GROUP_BITS.map(sort);
        let mut all: Vec<Lapse> = sorts.into_iter().flat_map(bits).collect();
        all.push(Lapse::Miscounted);
        all
    }

    /// Answers whether the frame has a place for it.
    fn plant(self, written: &mut Written) -> bool {
        let (first, second) = (written.objects, 2 * written.objects);
        let planted = match (self, written.warned, written.told) {
            (Lapse::FallsAtFirst(bit), true, false) => written.drop_bit(first..second, bit),
            (Lapse::FallsLater(bit), true, false) => {
                written.drop_bit(second..written.marks.len(), bit)
            }
            (Lapse::Unwarned(bit), false, false) | (Lapse::Told(bit), true, true) => {
                written.marks.iter_mut().for_each(|mark| *mark &= !bit);
                true
            }
            (Lapse::Miscounted, ..) => true,
            _ => return false,
        };
        written.unsettled = written.counted() ^ u32::from(self == Lapse::Miscounted);
        planted
    }
}

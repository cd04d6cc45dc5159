//! The five calls behind their C names, each over all that is lent.

use crate::lent::{Lent, BLOCKS, CARRIED, RETAINED, START, TIMINGS};

extern "C" {
    fn oamd_hold(
        retained: *const i16,
        retained_len: usize,
        start: *mut i16,
        start_len: usize,
        objects: *mut u32,
    ) -> u32;
    fn oamd_timing_by_rule(
        rule: u32,
        timings: *const u16,
        timings_len: usize,
        blocks: u32,
        objects: u32,
        start: *const i16,
        start_len: usize,
        carried: *const i16,
        carried_len: usize,
        state: *mut u16,
    ) -> u32;
    fn oamd_ramp_by_rule(
        rule: u32,
        timings: *const u16,
        timings_len: usize,
        blocks: u32,
        sample: u32,
        state: *const u16,
        answer: *mut u32,
        fraction: *mut f32,
    ) -> u32;
    fn oamd_carry(
        rule: u32,
        timings: *const u16,
        timings_len: usize,
        blocks: u32,
        objects: u32,
        start: *const i16,
        start_len: usize,
        block_rows: *const i16,
        block_rows_len: usize,
        carried: *mut i16,
        carried_len: usize,
        state: *mut u16,
    ) -> u32;
    fn oamd_drop(state: *mut u16);
    fn oamd_timing(timings: *const u16, timings_len: usize, blocks: u32) -> u32;
    fn oamd_ramp(
        timings: *const u16,
        timings_len: usize,
        blocks: u32,
        sample: u32,
        answer: *mut u32,
        fraction: *mut f32,
    ) -> u32;
}

#[derive(Clone, Copy, Debug, PartialEq, Eq, PartialOrd, Ord)]
pub enum Name {
    Hold,
    Timing,
    Ramp,
    Carry,
    Drop,
}

/// Changes what is lent, and gives back a number.
pub type Function = fn(&mut Lent) -> u32;

/// A function for each name, in their order.
#[derive(Clone, Copy)]
pub struct Calls(pub [Function; 5]);

pub const PROVED: Calls = Calls([hold, timing, ramp, carry, drop]);

impl Calls {
    pub fn make(&self, name: Name, lent: &mut Lent) -> u32 {
        self.0[name as usize](lent)
    }

    /// The same, but for one call.
    pub fn with(mut self, name: Name, function: Function) -> Self {
        self.0[name as usize] = function;
        self
    }
}

// In each call a pointer goes with a length within its own vector, and nothing else holds them.

pub fn hold(lent: &mut Lent) -> u32 {
    let Lent {
        tables,
        lengths,
        held,
        ..
    } = lent;
    unsafe {
        oamd_hold(
            tables.retained.as_ptr(),
            lengths[RETAINED],
            tables.start.as_mut_ptr(),
            lengths[START],
            held.as_mut_ptr(),
        )
    }
}

pub fn timing(lent: &mut Lent) -> u32 {
    unsafe {
        oamd_timing_by_rule(
            lent.rule,
            lent.tables.timings.as_ptr(),
            lent.lengths[TIMINGS],
            lent.blocks,
            lent.objects,
            lent.tables.start.as_ptr(),
            lent.lengths[START],
            lent.carried.as_ptr(),
            lent.lengths[CARRIED],
            lent.state.as_mut_ptr(),
        )
    }
}

pub fn ramp(lent: &mut Lent) -> u32 {
    unsafe {
        oamd_ramp_by_rule(
            lent.rule,
            lent.tables.timings.as_ptr(),
            lent.lengths[TIMINGS],
            lent.blocks,
            lent.sample,
            lent.state.as_ptr(),
            lent.answer.as_mut_ptr(),
            lent.fraction.as_mut_ptr().cast(),
        )
    }
}

pub fn carry(lent: &mut Lent) -> u32 {
    unsafe {
        oamd_carry(
            lent.rule,
            lent.tables.timings.as_ptr(),
            lent.lengths[TIMINGS],
            lent.blocks,
            lent.objects,
            lent.tables.start.as_ptr(),
            lent.lengths[START],
            lent.tables.blocks.as_ptr(),
            lent.lengths[BLOCKS],
            lent.carried.as_mut_ptr(),
            lent.lengths[CARRIED],
            lent.state.as_mut_ptr(),
        )
    }
}

/// It gives back nothing, which is said as 0.
pub fn drop(lent: &mut Lent) -> u32 {
    unsafe { oamd_drop(lent.state.as_mut_ptr()) };
    0
}

/// The timing call that knows no rule.
pub fn timing_without_rule(lent: &Lent) -> u32 {
    let (table, length) = (lent.tables.timings.as_ptr(), lent.lengths[TIMINGS]);
    unsafe { oamd_timing(table, length, lent.blocks) }
}

/// The ramp call that knows no rule.
pub fn ramp_without_rule(lent: &mut Lent) -> u32 {
    unsafe {
        oamd_ramp(
            lent.tables.timings.as_ptr(),
            lent.lengths[TIMINGS],
            lent.blocks,
            lent.sample,
            lent.answer.as_mut_ptr(),
            lent.fraction.as_mut_ptr().cast(),
        )
    }
}

//! The proved decoder behind its C names, on tables that are longer than it needs.

use oracle::call::Call;
use oracle::listener::Said;
use oracle::tables::{BLOCKS_LENGTH, RETAINED_LENGTH, START_LENGTH, TIMINGS_LENGTH};

extern "C" {
    fn oamd_decode(
        payload: *const u8,
        payload_len: usize,
        retained: *mut i16,
        retained_len: usize,
        start: *mut i16,
        start_len: usize,
        blocks: *mut i16,
        blocks_len: usize,
        timings: *mut u16,
        timings_len: usize,
        answer: *mut u32,
    ) -> u32;
    fn oamd_start(retained: *mut i16, retained_len: usize) -> u32;
    fn oamd_reset(retained: *mut i16, retained_len: usize) -> u32;
    fn oamd_gap(retained: *mut i16, retained_len: usize) -> u32;
}

/// Numbers that are lent behind each table's needed length.
const BEHIND: usize = 19;
/// What the answer array holds before a call: no number of an answer is so large.
const NO_ANSWER: u32 = 0xa5a5_a5a5;

pub const TABLES: usize = 4;
pub const NEEDED: [usize; TABLES] = [RETAINED_LENGTH, START_LENGTH, BLOCKS_LENGTH, TIMINGS_LENGTH];
pub const RETAINED: usize = 0;

#[derive(Clone)]
pub struct Tables {
    pub retained: Vec<i16>,
    pub start: Vec<i16>,
    pub blocks: Vec<i16>,
    pub timings: Vec<u16>,
}

impl Tables {
    /// A fresh decoder's tables.
    pub fn new() -> Self {
        Tables {
            retained: vec![0; RETAINED_LENGTH + BEHIND],
            start: vec![0; START_LENGTH + BEHIND],
            blocks: vec![0; BLOCKS_LENGTH + BEHIND],
            timings: vec![0; TIMINGS_LENGTH + BEHIND],
        }
    }

    /// All but what is retained becomes the sentinel.
    pub fn fill(&mut self, sentinel: i16) {
        self.retained[RETAINED_LENGTH..].fill(sentinel);
        self.start.fill(sentinel);
        self.blocks.fill(sentinel);
        self.timings.fill(sentinel as u16);
    }

    pub fn copy_from(&mut self, other: &Tables) {
        self.retained.copy_from_slice(&other.retained);
        self.start.copy_from_slice(&other.start);
        self.blocks.copy_from_slice(&other.blocks);
        self.timings.copy_from_slice(&other.timings);
    }

    pub fn lengths(&self) -> [usize; TABLES] {
        [
            self.retained.len(),
            self.start.len(),
            self.blocks.len(),
            self.timings.len(),
        ]
    }

    pub fn decode(&mut self, payload: &[u8]) -> Said {
        self.decode_lent(payload, self.lengths())
    }

    /// Lends no more of each table than said.
    pub fn decode_lent(&mut self, payload: &[u8], lent: [usize; TABLES]) -> Said {
        assert!(lent
            .iter()
            .zip(self.lengths())
            .all(|(lent, length)| *lent <= length));
        let mut answer = [NO_ANSWER; 6];
        // Each pointer goes with a length within its own vector, and nothing else holds them.
        let number = unsafe {
            oamd_decode(
                payload.as_ptr(),
                payload.len(),
                self.retained.as_mut_ptr(),
                lent[0],
                self.start.as_mut_ptr(),
                lent[1],
                self.blocks.as_mut_ptr(),
                lent[2],
                self.timings.as_mut_ptr(),
                lent[3],
                answer.as_mut_ptr(),
            )
        };
        let [context, place, objects, blocks, unsettled, missing] = answer;
        Said {
            number,
            context,
            place,
            objects,
            blocks,
            unsettled,
            missing,
        }
    }

    /// Lends so much of the retained table.
    pub fn call_lent(&mut self, call: Call, lent: usize) -> u32 {
        assert!(lent <= self.retained.len());
        let function = match call {
            Call::Start => oamd_start,
            Call::Reset => oamd_reset,
            Call::Gap => oamd_gap,
        };
        unsafe { function(self.retained.as_mut_ptr(), lent) }
    }
}

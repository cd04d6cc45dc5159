//! What the noting decoder tried to read, to skip or to take in as an element, in order.

use crate::{context, oamd_noting};
use std::cell::RefCell;

#[derive(Clone, Copy, PartialEq, Eq)]
pub enum Sort {
    Read,
    Skip,
    Element,
}

#[derive(Clone, Copy)]
pub struct Note {
    sort: Sort,
    pub place: usize,
    pub width: usize,
    /// The end that the Rust held it against, as a bit place.
    limit: usize,
    context: &'static str,
}

impl Note {
    pub fn is(&self, context: u8) -> bool {
        self.context == context::string(context)
    }

    pub fn context(&self) -> u8 {
        context::number(self.context)
    }

    /// The bits that are wanted and do not remain, of an attempt that was cut.
    pub fn missing(&self) -> usize {
        assert!(self.is_cut(), "the end cuts it");
        self.width - (self.limit - self.place)
    }

    /// Whether it is a field, and was read whole.
    pub fn is_read(&self) -> bool {
        self.sort == Sort::Read && !self.is_cut()
    }

    fn is_cut(&self) -> bool {
        self.limit - self.place < self.width
    }

    /// The number that was read, of a field and not of a skipped run.
    pub fn value(&self, payload: &[u8]) -> u32 {
        let bit = |place: usize| u32::from(payload[place / 8] >> (7 - place % 8) & 1);
        (self.place..self.place + self.width).fold(0, |value, place| value << 1 | bit(place))
    }
}

thread_local! {
    // The decoder's calls have no room for a further parameter.
    static NOTES: RefCell<Vec<Note>> = const { RefCell::new(Vec::new()) };
}

/// Called by the noting decoder at the head of each read and skip, and where it tests an element's end.
pub fn note(sort: Sort, place: usize, width: usize, limit: usize, context: &'static str) {
    NOTES.with(|notes| {
        notes.borrow_mut().push(Note {
            sort,
            place,
            width,
            limit,
            context,
        })
    });
}

/// What a payload made the noting decoder try, and its error.
/// What is retained changes neither, so a fresh decoder serves.
pub fn noted(payload: &[u8]) -> (Vec<Note>, Option<String>) {
    take();
    let answer = oamd_noting::OamdDecoder::default().decode(payload);
    (take(), answer.err().map(|error| error.to_string()))
}

/// The notes so far; the next reading begins with none.
fn take() -> Vec<Note> {
    NOTES.with(|notes| std::mem::take(&mut *notes.borrow_mut()))
}

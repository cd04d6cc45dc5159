//! The specification's place and missing bits of a refusal, from what the noting decoder tried to read.

use crate::answer::{INVALID, LIMIT, TRUNCATED, UNSUPPORTED};
use crate::context as c;
use crate::notes::Note;

/// The bit place; `end` is the payload's length in bits.
pub fn place(number: u8, context: u8, notes: &[Note], end: usize) -> usize {
    match (number, context) {
        // The last attempt is the cut one: a field, an extension, a more flag, a skipped run or an element.
        (TRUNCATED, _) => last(notes).place,
        (LIMIT, c::ELEMENT_SIZE) => first_size_group(notes),
        (INVALID, c::DUPLICATE_OBJECT_ELEMENT) => last_of(notes, c::ELEMENT_ID).place,
        (INVALID, c::MISSING_OBJECT_ELEMENT) => end,
        (INVALID, c::PROGRAM_ASSIGNMENT_OBJECT_COUNT) => {
            last_of(notes, c::DYNAMIC_ONLY_PROGRAM_FLAG).place
        }
        (UNSUPPORTED, c::ALTERNATE_OBJECT_DATA_TYPE) => {
            last_of(notes, c::ALTERNATE_OBJECT_DATA_ID).place
        }
        (UNSUPPORTED, c::CUSTOM_TRIM_CONFIGURATION) => last_of(notes, c::GLOBAL_TRIM_MODE).place,
        // The tested field bears the refusal's own context: of a version or a count its first part,
        // of padding the bit that was 1.
        _ => last_of(notes, context).place,
    }
}

/// A cut attempt alone misses bits: what it wanted, less what the Rust's own limit left it.
pub fn missing(number: u8, notes: &[Note]) -> usize {
    match number {
        TRUNCATED => last(notes).missing(),
        _ => 0,
    }
}

fn last(notes: &[Note]) -> Note {
    *notes.last().expect("a cut read was attempted")
}

fn last_of(notes: &[Note], context: u8) -> Note {
    let found = notes.iter().rev().find(|note| note.is(context));
    *found.expect("the refused field was read")
}

/// Where the size of the last element begins: groups and more flags bear one context.
fn first_size_group(notes: &[Note]) -> usize {
    let id = last_of(notes, c::ELEMENT_ID);
    id.place + id.width
}

//! The numbers of the context strings, by docs/CONTEXTS.md; oracle/build gives each a name.

use std::collections::HashMap;
use std::sync::OnceLock;

#[allow(dead_code)]
#[path = "../target/oracle/context_names.rs"]
mod names;
pub use names::*;

/// The number of a string. A string that the list lacks ends the program.
pub fn number(text: &str) -> u8 {
    // Every note of every payload asks, so the list is not searched each time.
    static NUMBERS: OnceLock<HashMap<&str, u8>> = OnceLock::new();
    let numbers = NUMBERS.get_or_init(|| STRINGS.into_iter().zip(1..).collect());
    match numbers.get(text) {
        Some(number) => *number,
        None => panic!("docs/CONTEXTS.md has no number for: {text}"),
    }
}

/// The string of a number.
pub fn string(number: u8) -> &'static str {
    STRINGS[usize::from(number) - 1]
}

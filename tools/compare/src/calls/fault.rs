//! What is wrong with an answer of the library.

use std::fmt::Debug;

/// In words, with what was expected and what was seen.
pub type Fault = String;

/// Nothing if both are equal.
pub fn same<T: PartialEq + Debug>(what: &str, expected: T, seen: T) -> Result<(), Fault> {
    if expected == seen {
        return Ok(());
    }
    Err(format!("{what}: expected {expected:?},\n   seen {seen:?}"))
}

/// Nothing if it holds.
pub fn holds(what: &str, test: bool) -> Result<(), Fault> {
    test.then_some(()).ok_or(what.to_string())
}

//! Answers as texts.

use std::alloc::{AllocError, Global};
use std::fmt::Debug;

/// A value, as `{:?}` writes it.
pub fn shown<T: Debug + Drop>(alloc: Global, value: T) -> Result<String, AllocError> {
    format!(in alloc; "{value:?}")
}

/// The same, as a line.
pub fn shown_line<T: Debug + Drop>(alloc: Global, value: T) -> Result<String, AllocError> {
    format!(in alloc; "{value:?}\n")
}

/// The value of an answer, or its error.
pub fn value_or_error<T: Debug + Drop, E: Debug + Drop>(
    alloc: Global,
    answer: Result<T, E>,
) -> Result<String, AllocError> {
    match answer {
        Ok(value) => shown(alloc, value),
        Err(error) => shown(alloc, error),
    }
}

/// An answer, and behind it that of a copy where it is another one.
pub fn beside_copy(mut answer: String, of_copy: String) -> Result<String, AllocError> {
    if answer.as_str() != of_copy.as_str() {
        write!(answer, "\ncopy: {of_copy}")?;
    }
    Ok(answer)
}

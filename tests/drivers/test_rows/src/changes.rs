//! Files that are cut, and files with another byte.

use crate::objects::on_object;
use crate::prepared::linked_in_one_call;
use std::alloc::{AllocError, Global};
use test_cases::{Action, Files, changed, front, no_action, tally_each};

/// Whether the bytes are an object, or the error.
fn parsed(alloc: Global, files: &Files, bytes: &[u8]) -> Result<String, AllocError> {
    let action = Action {
        is_broad: false,
        name: "is_object",
        words: Vec::new(alloc),
    };
    on_object(alloc, files, bytes, &action)
}

/// What the first bytes give, for each length from one number up to another.
pub fn prefixes(alloc: Global, files: &Files, action: &Action<'_>) -> Result<String, AllocError> {
    let bytes = files.get("object");
    tally_each(alloc, action.range(), |length| {
        parsed(alloc, files, front(bytes, length))
    })
}

/// What the bytes give, prepared or parsed.
fn outcome(
    alloc: Global,
    files: &Files,
    bytes: &[u8],
    is_prepared: bool,
) -> Result<String, AllocError> {
    if is_prepared {
        linked_in_one_call(alloc, bytes)
    } else {
        parsed(alloc, files, bytes)
    }
}

/// What the bytes give with another one at a place.
fn changed_outcome(
    alloc: Global,
    files: &Files,
    place: usize,
    value: u8,
    is_prepared: bool,
) -> Result<String, AllocError> {
    let bytes = changed(alloc, files.get("object"), place, value)?;
    outcome(alloc, files, &bytes, is_prepared)
}

/// What the bytes give with one value at each place from one number up to another: prepared, with the programs linked, as
/// the action `prepared_bytes`, or parsed.
pub fn bytes(alloc: Global, files: &Files, action: &Action<'_>) -> Result<String, AllocError> {
    let Ok(value) = action.word(2).parse::<u8>() else {
        return no_action(alloc);
    };
    let is_prepared = action.name == "prepared_bytes";
    tally_each(alloc, action.range(), |place| {
        changed_outcome(alloc, files, place, value, is_prepared)
    })
}

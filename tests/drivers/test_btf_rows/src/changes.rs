//! Files that are cut, and files with another byte.

use ebpf_btf::{Btf, Endianness};
use std::alloc::{AllocError, Global};
use test_cases::{Action, Files, changed, front, tally_each, value_or_error};

/// How many types bytes have, or why they can't be read.
fn count(alloc: Global, bytes: &[u8]) -> Result<String, AllocError> {
    let parsed = Btf::parse(alloc, bytes, Endianness::Little);
    value_or_error(alloc, parsed.map(|btf| btf.len()))
}

/// What the first bytes give, for each length from one number up to another.
pub fn prefixes(alloc: Global, files: &Files, action: &Action<'_>) -> Result<String, AllocError> {
    let bytes = files.get("types");
    tally_each(alloc, action.range(), |length| {
        count(alloc, front(bytes, length))
    })
}

/// What the bytes give with a value at a place: the number modulo 256 at the number of the bytes before it.
fn count_changed(alloc: Global, bytes: &[u8], number: usize) -> Result<String, AllocError> {
    let bytes = changed(alloc, bytes, number / 256, (number % 256) as u8)?;
    count(alloc, &bytes)
}

/// What the bytes give with each value at each place from one number up to another.
pub fn all_bytes(alloc: Global, files: &Files, action: &Action<'_>) -> Result<String, AllocError> {
    let bytes = files.get("types");
    let places = action.range();
    let numbers = places.start.saturating_mul(256)..places.end.saturating_mul(256);
    tally_each(alloc, numbers, |number| count_changed(alloc, bytes, number))
}

//! Actions on types.

use crate::added::added;
use crate::answers::both_answers;
use crate::candidates::candidates;
use crate::ext::{ext_prefixes, on_ext};
use crate::fits::fits;
use ebpf_btf::{Btf, BtfError, Endianness};
use std::alloc::{AllocError, Global};
use test_cases::{Action, Files, beside_copy, shown};

/// The bytes of a file and their order: those of `big NAME`, if that has any, are big endian, and those of `NAME` little.
pub fn ordered<'a>(files: &'a Files, big_name: &str, little_name: &str) -> (&'a [u8], Endianness) {
    let big = files.get(big_name);
    if big.is_empty() {
        (files.get(little_name), Endianness::Little)
    } else {
        (big, Endianness::Big)
    }
}

/// The types of a case.
fn types(alloc: Global, files: &Files) -> Result<Btf, BtfError> {
    let (bytes, order) = ordered(files, "big types", "types");
    Btf::parse(alloc, bytes, order)
}

/// The types of a case, which keep its bytes.
fn kept_types(alloc: Global, files: &Files) -> Result<Btf, BtfError> {
    let (bytes, order) = ordered(files, "big types", "types");
    Btf::from_vec(Vec::from_slice(alloc, bytes)?, order)
}

/// What an action gives of these types.
fn of_types(
    alloc: Global,
    files: &Files,
    btf: &Btf,
    action: &Action<'_>,
) -> Result<String, AllocError> {
    match action.name {
        "added" => added(alloc, btf, action.words.as_slice()),
        "candidates" => candidates(alloc, btf, action),
        "fields" | "types" | "all_fields" | "all_types" | "match" | "all_match" => fits(alloc, files, btf, action),
        "ext_prefixes" => ext_prefixes(alloc, files, btf, action),
        "ext" | "funcs" | "lines" | "relocations" => on_ext(alloc, files, btf, action),
        _ => both_answers(alloc, btf, action),
    }
}

/// What an action gives of types, or why there are none.
fn of_read(
    alloc: Global,
    files: &Files,
    types: Result<Btf, BtfError>,
    action: &Action<'_>,
) -> Result<String, AllocError> {
    match types {
        Ok(btf) => of_types(alloc, files, &btf, action),
        Err(error) => shown(alloc, error),
    }
}

/// What an action gives of the types of its case, or why there are none; and what it gives of types that keep the bytes,
/// where that is something else.
pub fn on_types(alloc: Global, files: &Files, action: &Action<'_>) -> Result<String, AllocError> {
    let answered = of_read(alloc, files, types(alloc, files), action)?;
    let of_kept = of_read(alloc, files, kept_types(alloc, files), action)?;
    beside_copy(answered, of_kept)
}

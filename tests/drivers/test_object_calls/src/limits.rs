//! Limits on what is made of a file: at what is made exactly, and one below.

mod objects;

use super::hex::bytes_of;
use ebpf_limits::{Limits, parse_within};
use ebpf_parts::{ParseError, ParseMode};
use objects::{
    DISORDERED, DISORDERED_MADE, ENTRIES, ENTRIES_MADE, FUNCTIONS, FUNCTIONS_MADE, LICENSES,
    LICENSES_MADE, RECORDS, RECORDS_MADE, TAILS, TAILS_MADE, ZEROS, ZEROS_MADE,
};
use std::alloc::{AllocError, Global};
use std::test::Fail;
use test_same::{same, same_number};

/// What has a word for it where a file is refused.
trait Refusal: Drop {
    /// What is said of it, and the limit that it names, or this one.
    fn said(&self, most_bytes: u64) -> (&'static str, u64);
}

impl Refusal for ParseError {
    fn said(&self, most_bytes: u64) -> (&'static str, u64) {
        match self {
            ParseError::TooLarge { most_bytes } => ("too large", *most_bytes),
            ParseError::ElfError(_) => ("no file", most_bytes),
            ParseError::InvalidMapDefinition { .. } => ("a map's fault", most_bytes),
            _ => ("another refusal", most_bytes),
        }
    }
}

/// What is said of what was parsed within a limit, or of why nothing was. It knows neither type, so that its proof doesn't
/// let go of each part of an object.
fn said_of<T: Drop, E: Refusal>(parsed: Result<T, E>, most_bytes: u64) -> (&'static str, u64) {
    match parsed {
        Ok(_) => ("an object", most_bytes),
        Err(error) => error.said(most_bytes),
    }
}

/// What a file answers within a limit, and the limit that a refusal names.
fn answer(alloc: Global, bytes: &[u8], most_bytes: u64) -> (&'static str, u64) {
    let limits = Limits { most_bytes };
    said_of(
        parse_within(alloc, bytes, ParseMode::Strict, limits),
        most_bytes,
    )
}

/// Fails where a file doesn't answer so within a limit.
fn answers(alloc: Global, bytes: &[u8], most_bytes: u64, want: &str) -> Result<(), Fail> {
    let (got, limit) = answer(alloc, bytes, most_bytes);
    same(got, want)?;
    same_number(limit, most_bytes)
}

/// Fails where an object isn't given at what is made of it, or is given below that.
fn is_counted(alloc: Global, lines: &[&str], made: u64) -> Result<(), Fail> {
    let bytes = bytes_of(alloc, lines)?;
    answers(alloc, &bytes, made, "an object")?;
    answers(alloc, &bytes, made.saturating_sub(1), "too large")
}

#[test]
fn a_license_counts_at_each_program(rt: HostRuntime) -> Result<(), Fail> {
    is_counted(rt.alloc(), &LICENSES, LICENSES_MADE)
}

#[test]
fn functions_that_overlap_count_each(rt: HostRuntime) -> Result<(), Fail> {
    is_counted(rt.alloc(), &FUNCTIONS, FUNCTIONS_MADE)
}

#[test]
fn records_count_at_each_function(rt: HostRuntime) -> Result<(), Fail> {
    is_counted(rt.alloc(), &RECORDS, RECORDS_MADE)
}

#[test]
fn records_out_of_order_count_all(rt: HostRuntime) -> Result<(), Fail> {
    is_counted(rt.alloc(), &DISORDERED, DISORDERED_MADE)
}

#[test]
fn zeros_that_the_file_lacks_count(rt: HostRuntime) -> Result<(), Fail> {
    is_counted(rt.alloc(), &ZEROS, ZEROS_MADE)
}

#[test]
fn tails_of_one_name_count_each(rt: HostRuntime) -> Result<(), Fail> {
    is_counted(rt.alloc(), &TAILS, TAILS_MADE)
}

#[test]
fn entries_of_tables_count(rt: HostRuntime) -> Result<(), Fail> {
    is_counted(rt.alloc(), &ENTRIES, ENTRIES_MADE)
}

/// Writes the size of the section `.bss`, the file's first, whose header stands at an offset.
fn write_size(bytes: &mut [u8], header: usize, size: u64) {
    let digits = size.to_le_bytes();
    for (byte, slot) in digits
        .iter()
        .zip(bytes.iter_mut().skip(header).skip(32).take(8))
    {
        *slot = *byte;
    }
}

/// Where the header of section 1 stands in `ZEROS`.
const BSS_HEADER: usize = 240;

/// The object with zeros, whose `.bss` has another size.
fn with_zeros(alloc: Global, size: u64) -> Result<Vec<u8>, AllocError> {
    let mut bytes = bytes_of(alloc, &ZEROS)?;
    write_size(&mut bytes, BSS_HEADER, size);
    Ok(bytes)
}

#[test]
fn large_zeros_are_refused_before_they_are_made(rt: HostRuntime) -> Result<(), Fail> {
    let bytes = with_zeros(rt.alloc(), 0xfffffff0)?;
    answers(rt.alloc(), &bytes, 1 << 30, "too large")
}

#[test]
fn a_size_past_all_limits_is_too_large(rt: HostRuntime) -> Result<(), Fail> {
    let bytes = with_zeros(rt.alloc(), u64::MAX)?;
    answers(rt.alloc(), &bytes, u64::MAX, "too large")
}

#[test]
fn other_faults_come_behind_the_limit(rt: HostRuntime) -> Result<(), Fail> {
    let bytes = with_zeros(rt.alloc(), 1 << 32)?;
    answers(rt.alloc(), &bytes, 1 << 32, "too large")?;
    answers(rt.alloc(), &bytes, 1 << 33, "a map's fault")
}

#[test]
fn no_file_is_told_before_the_limit(rt: HostRuntime) -> Result<(), Fail> {
    answers(rt.alloc(), b"no file", 0, "no file")
}

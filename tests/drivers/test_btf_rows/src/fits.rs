//! Whether types fit: their fields, or the types themselves.

use ebpf_btf::{Btf, BtfError, Endianness};
use ebpf_core_candidates::{fields_are_compatible, types_are_compatible, types_match};
use std::alloc::{AllocError, Global};
use test_cases::{Action, Files, no_action, shown, value_or_error};

/// What is asked of two types.
#[derive(Clone, Copy)]
enum Fit {
    Fields,
    Types,
    Match,
}

/// Whether two types fit.
fn fit(
    asked: Fit,
    local: &Btf,
    local_id: u32,
    target: &Btf,
    target_id: u32,
) -> Result<bool, BtfError> {
    match asked {
        Fit::Fields => fields_are_compatible(local, local_id, target, target_id),
        Fit::Types => types_are_compatible(local, local_id, target, target_id),
        Fit::Match => types_match(local, local_id, target, target_id),
    }
}

/// What is said of a local type and each target type, beside each other.
fn with_each(
    alloc: Global,
    asked: Fit,
    local: &Btf,
    local_id: u32,
    target: &Btf,
) -> Result<String, AllocError> {
    let mut text = String::from_str(alloc, "with each:")?;
    for other in 0..target.len() {
        let found = value_or_error(alloc, fit(asked, local, local_id, target, other as u32))?;
        write!(text, " {found}")?;
    }
    Ok(text)
}

/// What is said of a local type and a target type, or each where the action names none.
fn of_both(
    alloc: Global,
    local: &Btf,
    target: &Btf,
    action: &Action<'_>,
) -> Result<String, AllocError> {
    let asked = match action.name {
        "fields" | "all_fields" => Fit::Fields,
        "types" | "all_types" => Fit::Types,
        _ => Fit::Match,
    };
    match (action.small_number(0), action.small_number(1)) {
        (Some(one), Some(other)) => value_or_error(
            alloc,
            fit(asked, local, one, target, other),
        ),
        (Some(one), None) => with_each(alloc, asked, local, one, target),
        _ => no_action(alloc),
    }
}

/// The same of the types of the file `target`, or of the local ones without such a file.
pub fn fits(
    alloc: Global,
    files: &Files,
    local: &Btf,
    action: &Action<'_>,
) -> Result<String, AllocError> {
    let bytes = files.get("target");
    if bytes.is_empty() {
        return of_both(alloc, local, local, action);
    }
    match Btf::parse(alloc, bytes, Endianness::Little) {
        Ok(target) => of_both(alloc, local, &target, action),
        Err(error) => shown(alloc, error),
    }
}

//! A kernel's types, and functions that are relocated to them, with the answer as text.

use crate::asking::{Asker, ask};
use ebpf_object::Object;
use ebpf_object::core_relo::{BtfRelocationError, RelocationError};
use ebpf_object::obj::{Btf, Endianness};
use std::alloc::{AllocError, Global};

/// Lends the types that bytes are.
pub fn on_types<A: Asker<Btf>>(
    alloc: Global,
    bytes: &[u8],
    order: Endianness,
    asker: A,
) -> A::Answer {
    ask(asker, Btf::parse(alloc, bytes, order))
}

/// Lends types that are void alone.
pub fn on_void_types<A: Asker<Btf>>(alloc: Global, asker: A) -> A::Answer {
    ask(asker, Btf::new(alloc))
}

/// Why a relocation can't be applied, but for the texts that are for people to read.
fn fault(alloc: Global, error: &RelocationError) -> Result<String, AllocError> {
    match error {
        RelocationError::InvalidAccessIndex {
            spec,
            index,
            len,
            ..
        } => {
            format!(in alloc; "InvalidAccessIndex {{ spec: {spec:?}, index: {index}, len: {len} }}")
        }
        RelocationError::InvalidRelocationKindForType {
            relocation_number,
            ..
        } => {
            format!(in alloc;
                "InvalidRelocationKindForType {{ relocation_number: {relocation_number} }}"
            )
        }
        RelocationError::InvalidInstruction {
            relocation_number,
            index,
            ..
        } => {
            format!(in alloc;
                "InvalidInstruction {{ relocation_number: {relocation_number}, index: {index} }}"
            )
        }
        error => format!(in alloc; "{error:?}"),
    }
}

/// Why a section can't be relocated.
fn refusal(alloc: Global, refusal: &BtfRelocationError) -> Result<String, AllocError> {
    let fault = fault(alloc, &refusal.error)?;
    let section = refusal.section.as_str();
    format!(in alloc; "{section}: {fault}")
}

/// Relocates the functions to types.
fn relocate(object: &mut Object, types: &Btf) -> Result<(), BtfRelocationError> {
    object.relocate_btf(types)
}

/// Relocates the functions to types: what that answers, but for the texts that are for people to read.
pub fn relocate_types(
    alloc: Global,
    object: &mut Object,
    types: &Btf,
) -> Result<String, AllocError> {
    match relocate(object, types) {
        Ok(()) => String::from_str(alloc, "Ok"),
        Err(error) => refusal(alloc, &error),
    }
}

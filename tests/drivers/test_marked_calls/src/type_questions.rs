//! What is asked of types.

use crate::call::{Call, say};
use crate::still::of_types;
use ebpf_btf::{Btf, BtfError, BtfKind, BtfType};
use ebpf_core_candidates::{TypeIndex, fields_are_compatible};
use std::alloc::Global;
use std::io;

/// Whether types can be indexed.
fn can_index(alloc: Global, types: &Btf) -> Result<(), BtfError> {
    match TypeIndex::new(alloc, types) {
        Ok(_) => Ok(()),
        Err(error) => Err(error),
    }
}

/// A question to an index: the ids of the STRUCTs of a name, or of those and the UNIONs.
fn of_index(index: &TypeIndex<'_>, call: &Call<'_>) -> io::Result<()> {
    let (first, second) = (BtfKind::Struct, BtfKind::Union);
    call.begin();
    match call.name {
        "candidates" => call.tell(index.candidates(first, call.word)),
        _ => call.tell(index.candidates_of_both(call.rt.alloc(), first, second, call.word)),
    }
}

/// A question to the index of the types.
fn with_index(types: &Btf, call: &Call<'_>) -> io::Result<()> {
    match TypeIndex::new(call.rt.alloc(), types) {
        Ok(index) => of_index(&index, call),
        Err(error) => say(call.rt, "no index: ", error),
    }
}

/// A question about a type: its name, also as an error has it.
fn of_type(types: &Btf, ty: &BtfType<'_>, call: &Call<'_>) -> io::Result<()> {
    call.begin();
    match call.name {
        "type_name" => call.tell(types.type_name(ty)),
        "err_type_name" => call.tell(types.err_type_name(ty)),
        _ => call.miss(),
    }
}

/// A question about the type whose id the word is.
fn with_type(types: &Btf, call: &Call<'_>) -> io::Result<()> {
    match types.type_by_id(call.number()) {
        Ok(ty) => of_type(types, &ty, call),
        Err(error) => say(call.rt, "no such type: ", error),
    }
}

/// A question that is put to the types at once. Whether a field fits is asked of a type and itself.
fn ask_at_once(types: &Btf, id: u32, call: &Call<'_>) -> io::Result<()> {
    call.begin();
    match call.name {
        "string_at" => call.tell(types.string_at(id)),
        "clone" => {
            let copy: Result<_, _> = types.clone();
            call.tell(copy)
        }
        "id_of" => call.tell(types.id_by_type_name_kind(call.word, BtfKind::Struct)),
        "index" => call.tell(can_index(call.rt.alloc(), types)),
        "fields" => call.tell(fields_are_compatible(types, id, types, id)),
        "still" => call.tell(of_types(types)),
        _ => call.miss(),
    }
}

/// Answers a question about types.
pub fn ask(types: &Btf, call: &Call<'_>) -> io::Result<()> {
    match call.name {
        "both" | "candidates" => with_index(types, call),
        "type_name" | "err_type_name" => with_type(types, call),
        _ => ask_at_once(types, call.number(), call),
    }
}

//! Calls on types.

use crate::call::{Call, say};
use crate::type_questions::ask;
use ebpf_btf::{Btf, BtfType, Endianness};
use std::io;

/// Parses the types.
pub fn parse_types(bytes: &[u8], call: &Call<'_>) -> io::Result<()> {
    call.begin();
    call.tell(Btf::parse(call.rt.alloc(), bytes, Endianness::Little))
}

/// Takes bytes over as types.
pub fn take_types(bytes: &[u8], call: &Call<'_>) -> io::Result<()> {
    let bytes = Vec::from_slice(call.rt.alloc(), bytes)?;
    call.begin();
    call.tell(Btf::from_vec(bytes, Endianness::Little))
}

/// Adds the word to the strings.
fn add_string(types: &mut Btf, call: &Call<'_>) -> io::Result<()> {
    call.begin();
    call.tell(types.add_string(call.word))
}

/// Adds a type.
fn add(types: &mut Btf, ty: &BtfType<'_>, call: &Call<'_>) -> io::Result<()> {
    call.begin();
    call.tell(types.add_type(ty))
}

/// Adds the type of a copy whose id the word is.
fn add_from(types: &mut Btf, copy: &Btf, call: &Call<'_>) -> io::Result<()> {
    match copy.type_by_id(call.number()) {
        Ok(again) => add(types, &again, call),
        Err(error) => say(call.rt, "no such type: ", error),
    }
}

/// Adds the type again whose id the word is.
fn add_type(types: &mut Btf, call: &Call<'_>) -> io::Result<()> {
    let copy: Result<Btf, _> = types.clone();
    match copy {
        Ok(copy) => add_from(types, &copy, call),
        Err(error) => say(call.rt, "no copy: ", error),
    }
}

/// A call on types.
pub fn on_types(types: &mut Btf, call: &Call<'_>) -> io::Result<()> {
    match call.name {
        "add_string" => add_string(types, call),
        "add_type" => add_type(types, call),
        _ => ask(types, call),
    }
}

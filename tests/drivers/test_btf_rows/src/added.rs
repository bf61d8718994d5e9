//! Types and strings that are added.

use crate::answers::text_of;
use ebpf_btf::{Btf, BtfError};
use std::alloc::{AllocError, Global};
use test_cases::shown;

/// The types, one behind the other.
fn put_list(text: &mut String, btf: &Btf) -> Result<(), AllocError> {
    for id in 0..btf.len() {
        let before = if id == 0 { "" } else { ", " };
        let ty = btf.at(id);
        write!(text, "{before}{ty:?}")?;
    }
    Ok(())
}

/// The types of new type information, and its texts at 0 and 1.
fn put_new(alloc: Global, text: &mut String, btf: &Btf) -> Result<(), AllocError> {
    write!(text, "new: [")?;
    put_list(text, btf)?;
    write!(text, "]")?;
    for offset in 0..2u32 {
        let found = text_of(alloc, btf.string_at(offset))?;
        write!(text, ", {offset}: {found}")?;
    }
    writeln!(text)
}

/// Adds the words as strings, and says their offsets.
fn add_strings(text: &mut String, btf: &mut Btf, words: &[&str]) -> Result<(), BtfError> {
    write!(text, "strings at")?;
    for word in words {
        let offset = btf.add_string(word)?;
        write!(text, " {offset}")?;
    }
    Ok(())
}

/// Adds the types after void of others, and says their ids.
fn add_types(text: &mut String, btf: &mut Btf, from: &Btf) -> Result<(), BtfError> {
    write!(text, "\ntypes")?;
    for id in 1..from.len() {
        let added = btf.add_type(&from.at(id))?;
        write!(text, " {added}")?;
    }
    Ok(())
}

/// A line for each type.
fn put_types(alloc: Global, text: &mut String, btf: &Btf) -> Result<(), AllocError> {
    for id in 0..btf.len() {
        let ty = btf.at(id);
        let name = text_of(alloc, btf.type_name(&ty))?;
        write!(text, "\n{name}: {ty:?}")?;
    }
    Ok(())
}

/// Adds the words as strings and then the types after void of others to new type information, and says what is there then.
fn add_to_new(alloc: Global, from: &Btf, words: &[&str]) -> Result<String, BtfError> {
    let mut btf = Btf::new(alloc)?;
    let mut text = String::new(alloc);
    put_new(alloc, &mut text, &btf)?;
    add_strings(&mut text, &mut btf, words)?;
    add_types(&mut text, &mut btf, from)?;
    put_types(alloc, &mut text, &btf)?;
    Ok(text)
}

/// The offsets and ids that adding gives to new type information, and its types then.
pub fn added(alloc: Global, from: &Btf, words: &[&str]) -> Result<String, AllocError> {
    match add_to_new(alloc, from, words) {
        Ok(text) => Ok(text),
        Err(error) => shown(alloc, error),
    }
}

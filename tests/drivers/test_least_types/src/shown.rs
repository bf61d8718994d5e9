use ebpf_btf::{Btf, BtfError, BtfMember, BtfType};
use std::alloc::Global;

/// The name at an offset; `-` for none.
fn name_at(alloc: Global, btf: &Btf, offset: u32) -> Result<String, BtfError> {
    if offset == 0 {
        return Ok(String::from_str(alloc, "-")?);
    }
    let name = btf.string_at(offset)?;
    Ok(String::from_str(alloc, name.as_str())?)
}

/// Adds a member: its name, its type and its offset field.
fn add_member(
    alloc: Global,
    text: &mut String,
    btf: &Btf,
    member: &BtfMember,
) -> Result<(), BtfError> {
    let name = name_at(alloc, btf, member.name_offset)?;
    write!(text, " {name}:{}@{}", member.btf_type, member.offset)?;
    Ok(())
}

/// Adds the rows of a type.
fn add_rows(
    alloc: Global,
    text: &mut String,
    btf: &Btf,
    ty: &BtfType<'_>,
) -> Result<(), BtfError> {
    if let Some(members) = ty.members() {
        for member in members.iter() {
            add_member(alloc, text, btf, &member)?;
        }
    }
    for index in 0..ty.variant_count().unwrap_or(0) {
        if let Some(variant) = ty.variant(index) {
            let name = name_at(alloc, btf, variant.name_offset)?;
            write!(text, " {name}={}", variant.value)?;
        }
    }
    Ok(())
}

/// Adds a type: its kind, its name, its size or the type that it is for, and its rows.
fn add_type(alloc: Global, text: &mut String, btf: &Btf, ty: &BtfType<'_>) -> Result<(), BtfError> {
    let name = name_at(alloc, btf, ty.name_offset())?;
    write!(text, "{:?} {name}", ty.kind())?;
    if let Some(size) = ty.size() {
        write!(text, " {size}")?;
    }
    if let Some(inner) = ty.btf_type() {
        write!(text, " >{inner}")?;
    }
    if let Some(array) = ty.array() {
        write!(text, " {} of {}", array.len, array.element_type)?;
    }
    add_rows(alloc, text, btf, ty)?;
    text.push_str("; ")?;
    Ok(())
}

/// The types from id 1 on, in a few words each.
pub fn types_as_text(alloc: Global, btf: &Btf) -> Result<String, BtfError> {
    let mut text = String::new(alloc);
    for ty in btf.types().skip(1) {
        add_type(alloc, &mut text, btf, &ty)?;
    }
    Ok(text)
}

use ebpf_btf::{Btf, BtfEnum, BtfError, BtfMember, BtfType, Rows, UnionFallback};
use ebpf_object::Object;
use std::alloc::{AllocError, Global};

/// The members but the one with an index.
fn members_without(
    alloc: Global,
    members: &Rows<'_, BtfMember>,
    row: usize,
) -> Result<Vec<BtfMember>, AllocError> {
    let mut kept = Vec::new(alloc);
    for (index, member) in members.iter().enumerate() {
        if index != row {
            kept.push(member)?;
        }
    }
    Ok(kept)
}

/// The variants but the one with an index.
fn variants_without(
    alloc: Global,
    variants: &Rows<'_, BtfEnum>,
    row: usize,
) -> Result<Vec<BtfEnum>, AllocError> {
    let mut kept = Vec::new(alloc);
    for (index, variant) in variants.iter().enumerate() {
        if index != row {
            kept.push(variant)?;
        }
    }
    Ok(kept)
}

/// Adds a type without one of its rows.
fn add_without(
    alloc: Global,
    btf: &mut Btf,
    ty: &BtfType<'_>,
    row: usize,
) -> Result<u32, BtfError> {
    match ty {
        BtfType::Struct {
            name_offset,
            size,
            kind_flag,
            members,
        } => {
            let kept = members_without(alloc, members, row)?;
            btf.add_type(&BtfType::Struct {
                name_offset: *name_offset,
                size: *size,
                kind_flag: *kind_flag,
                members: Rows::of(kept.as_slice()),
            })
        }
        BtfType::Union {
            name_offset,
            size,
            kind_flag,
            members,
            ..
        } => {
            let kept = members_without(alloc, members, row)?;
            btf.add_type(&BtfType::Union {
                name_offset: *name_offset,
                size: *size,
                kind_flag: *kind_flag,
                members: Rows::of(kept.as_slice()),
                enum64_fallback: UnionFallback::new(None),
            })
        }
        BtfType::Enum {
            name_offset,
            size,
            kind_flag,
            variants,
        } => {
            let kept = variants_without(alloc, variants, row)?;
            btf.add_type(&BtfType::Enum {
                name_offset: *name_offset,
                size: *size,
                kind_flag: *kind_flag,
                variants: Rows::of(kept.as_slice()),
            })
        }
        other => btf.add_type(other),
    }
}

/// The types without one row of one of them.
fn types_without(alloc: Global, types: &Btf, at: usize, row: usize) -> Result<Btf, BtfError> {
    let mut less = types.clone()?;
    less.truncate(at, types.string_len());
    for (id, ty) in types.types().enumerate().skip(at) {
        if id == at {
            add_without(alloc, &mut less, &ty, row)?;
        } else {
            less.add_type(&ty)?;
        }
    }
    Ok(less)
}

/// The outcomes of an object's relocations over types, as text.
pub fn outcomes(alloc: Global, object: &Object, types: &Btf) -> Result<String, AllocError> {
    let found = object.record_outcomes(types)?;
    let mut text = String::new(alloc);
    for record in found.records.iter() {
        write!(&mut text, "{:?}; ", record.result)?;
    }
    Ok(text)
}

/// Whether an outcome of an object changes where one row is left out.
fn needs_row(
    alloc: Global,
    object: &Object,
    types: &Btf,
    at: usize,
    row: usize,
) -> Result<bool, BtfError> {
    let less = types_without(alloc, types, at, row)?;
    let before = outcomes(alloc, object, types)?;
    let after = outcomes(alloc, object, &less)?;
    Ok(before.as_str() != after.as_str())
}

/// The number of rows of a type.
fn row_count(ty: &BtfType<'_>) -> usize {
    match ty.members() {
        Some(members) => members.len(),
        None => ty.variant_count().unwrap_or(0),
    }
}

/// The rows that can be left out without changing an outcome, by the ids of their types and their indices, as text.
pub fn spare_rows(alloc: Global, object: &Object, types: &Btf) -> Result<String, BtfError> {
    let mut text = String::new(alloc);
    for (id, ty) in types.types().enumerate() {
        for row in 0..row_count(&ty) {
            if !needs_row(alloc, object, types, id, row)? {
                write!(&mut text, "{id}.{row} ")?;
            }
        }
    }
    Ok(text)
}

//! What type information answers.

use crate::error::BenchError;
use ebpf_btf::{Btf, BtfError, BtfType};
use ebpf_core_candidates::TypeIndex;
use std::alloc::{AllocError, Global};

/// How many candidates the names of each seventh type have together.
fn count_candidates(btf: &Btf, index: &TypeIndex) -> u64 {
    let mut count = 0u64;
    for id in (0..btf.len()).step_by(7) {
        let Some(ty) = btf.get(id) else {
            continue;
        };
        let Ok(name) = btf.type_name(&ty) else {
            continue;
        };
        if let Ok(ids) = index.candidates(ty.kind(), name.as_str()) {
            count = count.wrapping_add(ids.len() as u64);
        }
    }
    count
}

/// How many types have a size.
fn count_sized(btf: &Btf) -> u64 {
    let mut count = 0u64;
    for id in 0..btf.len() {
        if btf.type_size(id as u32).is_ok() {
            count = count.wrapping_add(1);
        }
    }
    count
}

/// Prints how many types there are, how many candidates each seventh's name has, and how many types have a size.
pub fn print_counts(rt: &HostRuntime, btf: &Btf, index: &TypeIndex) -> Result<(), BenchError> {
    let types = btf.len();
    let candidates = count_candidates(btf, index);
    let sized = count_sized(btf);
    println!(rt; "types {types}, candidates of each seventh {candidates}, with a size {sized}")?;
    Ok(())
}

/// Adds a number, or why there is none.
fn put_number(text: &mut String, answer: Result<u32, BtfError>) -> Result<(), AllocError> {
    match answer {
        Ok(number) => write!(text, "{number}"),
        Err(error) => write!(text, "{error:?}"),
    }
}

/// Adds what there is to tell of a type with a name.
fn put_named(
    text: &mut String,
    btf: &Btf,
    index: &TypeIndex,
    id: u32,
    ty: &BtfType<'_>,
    name: &str,
) -> Result<(), BtfError> {
    write!(text, "{id} {name}: size ")?;
    put_number(text, btf.type_size(id))?;
    write!(text, ", stands for ")?;
    put_number(text, btf.resolve_type(id))?;
    write!(text, ", first ")?;
    put_number(text, btf.id_by_type_name_kind(name, ty.kind()))?;
    let candidates = index.candidates(ty.kind(), name)?;
    let (count, sorted) = (candidates.len(), candidates.is_sorted());
    write!(text, ", candidates {count} in order {sorted}, {ty:?}")?;
    Ok(())
}

/// A line on a type: its id, its name, the size, the id that it stands for, the lowest id of its kind and name, how
/// many candidates there are and whether they are in order, and the type itself.
fn type_line(
    alloc: Global,
    btf: &Btf,
    index: &TypeIndex,
    id: u32,
    ty: &BtfType<'_>,
) -> Result<String, BtfError> {
    let name = btf.type_name(ty)?;
    let mut text = String::new(alloc);
    put_named(&mut text, btf, index, id, ty, name.as_str())?;
    Ok(text)
}

/// Prints the last ten types.
pub fn print_last(rt: &HostRuntime, btf: &Btf, index: &TypeIndex) -> Result<(), BenchError> {
    let from = btf.len().saturating_sub(10);
    for id in from..btf.len() {
        let ty = btf.at(id);
        let text = type_line(rt.alloc(), btf, index, id as u32, &ty)?;
        println!(rt; "{text}")?;
    }
    Ok(())
}

//! What type information says of instructions, line by line.

use ebpf_base::ByKey;
use ebpf_btf::Btf;
use ebpf_btf_ext::{BtfExt, Relocation};
use ebpf_model::Function;
use std::alloc::{AllocError, Global};
use test_cases::shown;

/// A line for the records of a function: the slots that have a record on functions, and how many records there are; those
/// that have one on lines, with these, and how many.
fn put_record(text: &mut String, function: &Function) -> Result<(), AllocError> {
    let name = function.name.as_str();
    let (func_size, line_size) = (function.func_info_rec_size, function.line_info_rec_size);
    write!(text, "records {name} of {func_size} and {line_size} bytes:")?;
    for row in function.func_info.func_info.as_slice() {
        let slot = row.insn_off;
        write!(text, " {slot}")?;
    }
    let count = function.func_info.num_info;
    write!(text, " of {count},")?;
    for row in function.line_info.line_info.as_slice() {
        let (slot, line) = (row.insn_off, row.line_col);
        write!(text, " {slot}/{line}")?;
    }
    let count = function.line_info.num_info;
    writeln!(text, " of {count}")
}

/// A line for the records of each function, by its key.
pub fn put_records(text: &mut String, functions: &ByKey<Function>) -> Result<(), AllocError> {
    for (_, function) in functions.iter() {
        put_record(text, function)?;
    }
    Ok(())
}

/// A line for a relocation of types, with its access string.
fn put_relocation(
    alloc: Global,
    text: &mut String,
    btf: &Btf,
    relocation: &Relocation,
) -> Result<(), AllocError> {
    let (at, held) = (relocation.insn_off, relocation.type_id);
    let (kind, number) = (relocation.kind, relocation.number);
    let path = shown(alloc, btf.string_at(relocation.access_str_off))?;
    writeln!(text, "{number} at {at} type {held} {path} {kind:?}")
}

/// A line for each section with relocations of types, and for each of these.
pub fn put_type_relocations(
    alloc: Global,
    text: &mut String,
    btf: &Btf,
    ext: &BtfExt,
) -> Result<(), AllocError> {
    for (section, relocations) in ext.relocations() {
        let name = shown(alloc, btf.string_at(*section))?;
        writeln!(text, "in {name}")?;
        for relocation in relocations.as_slice() {
            put_relocation(alloc, text, btf, relocation)?;
        }
    }
    Ok(())
}

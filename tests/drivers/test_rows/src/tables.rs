//! The tables of an object, line by line.

use ebpf_object::Object;
use std::alloc::{AllocError, Global};
use test_tables::{
    put_btf_defined_maps, put_functions, put_lines, put_map_ids, put_records, put_relocations,
    put_slots, put_symbols, put_type_relocations,
};

/// The license and the kernel version.
fn put_license_and_version(text: &mut String, object: &Object) -> Result<(), AllocError> {
    let license = object.license.as_slice();
    let version = object.kernel_version;
    writeln!(text, "{license:?} {version:?}")
}

/// A line for each section with relocations of types, and for each of these.
fn put_object_relocations(
    alloc: Global,
    text: &mut String,
    object: &Object,
) -> Result<(), AllocError> {
    match (&object.btf, &object.btf_ext) {
        (Some(btf), Some(ext)) => put_type_relocations(alloc, text, btf, ext),
        _ => Ok(()),
    }
}

/// What is said of an object, by the name of a table.
pub fn put_table(
    alloc: Global,
    text: &mut String,
    object: &Object,
    table: &str,
) -> Result<(), AllocError> {
    match table {
        "programs" => put_lines(alloc, text, &object.programs),
        "functions" => put_functions(text, &object.functions),
        "symbols" => put_symbols(alloc, text, &object.symbol_table),
        "relocations" => put_relocations(text, &object.relocations),
        "sections" => put_lines(alloc, text, &object.section_infos),
        "license_and_version" => put_license_and_version(text, object),
        "maps" => put_lines(alloc, text, &object.maps),
        "map_ids" => put_map_ids(alloc, text, &object.maps),
        "btf_defined_maps" => put_btf_defined_maps(alloc, text, &object.maps),
        "externs" => put_lines(alloc, text, &object.externs),
        "records" => put_records(text, &object.functions),
        "type_relocations" => put_object_relocations(alloc, text, object),
        "slots" => put_slots(alloc, text, &object.programs, &object.functions, false),
        "slot_counts" => put_slots(alloc, text, &object.programs, &object.functions, true),
        _ => writeln!(text, "no such table {table}"),
    }
}

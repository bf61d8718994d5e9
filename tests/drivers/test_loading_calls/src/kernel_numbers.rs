//! Numbers that a kernel knows, by small enumerations.

use ebpf_btf::{Btf, BtfEnum, BtfError};
use ebpf_load_info::KernelNumbers;
use std::alloc::Global;
use std::test::Fail;
use test_same::{same_answer, same_text};
use test_types::{add_enumeration, add_typedef};

/// Enumerators of these names and numbers.
fn variants_of(
    alloc: Global,
    types: &mut Btf,
    enumerators: &[(&str, u32)],
) -> Result<Vec<BtfEnum>, BtfError> {
    let mut variants = Vec::new(alloc);
    for (name, value) in enumerators {
        let name_offset = types.add_string(name)?;
        variants.push(BtfEnum {
            name_offset,
            value: *value,
        })?;
    }
    Ok(variants)
}

fn add_named(
    alloc: Global,
    types: &mut Btf,
    name: &str,
    enumerators: &[(&str, u32)],
) -> Result<u32, BtfError> {
    let name_offset = types.add_string(name)?;
    let variants = variants_of(alloc, types, enumerators)?;
    add_enumeration(types, name_offset, &variants)
}

/// The enumerators of a kernel with the helpers 0, 1 and 7, of which the names of helpers 7 are odd.
const HELPER_NAMES: [(&str, u32); 4] = [
    ("BPF_FUNC_unspec", 0),
    ("BPF_FUNC_map_lookup_elem", 1),
    ("helper_7", 7),
    ("__BPF_FUNC_MAX_ID", 8),
];

/// Those of another enumeration.
const OTHER_NAMES: [(&str, u32); 1] = [("BPF_FUNC_of_another_enumeration", 5)];

/// Those of the types of maps 0 and 2.
const MAP_TYPE_NAMES: [(&str, u32); 3] = [
    ("BPF_MAP_TYPE_UNSPEC", 0),
    ("BPF_MAP_TYPE_ARRAY", 2),
    ("__MAX_BPF_MAP_TYPE", 3),
];

/// A kernel with these.
fn kernel(alloc: Global) -> Result<Btf, BtfError> {
    let mut types = Btf::new(alloc)?;
    add_typedef(&mut types, "bpf_func_id", 2)?;
    add_named(alloc, &mut types, "bpf_func_id", &HELPER_NAMES)?;
    add_named(alloc, &mut types, "bpf_func_id", &OTHER_NAMES)?;
    add_named(alloc, &mut types, "bpf_map_type", &MAP_TYPE_NAMES)?;
    Ok(types)
}

/// Numbers of helpers, and whether the kernel knows them.
const HELPERS: [(u32, bool); 6] = [
    (0, true),
    (1, true),
    (2, false),
    (5, false),
    (7, true),
    (8, false),
];

/// Numbers of helpers, and their names.
const NAMES: [(u32, Option<&str>); 5] = [
    (0, Some("unspec")),
    (1, Some("map_lookup_elem")),
    (2, None),
    (7, None),
    (8, None),
];

/// Numbers of types of maps, and whether the kernel knows them.
const MAP_TYPES: [(u32, bool); 4] = [(0, true), (1, false), (2, true), (3, false)];

/// Fails where a helper isn't known so.
fn knows_helper(types: &Btf, number: u32, want: Option<bool>) -> Result<(), Fail> {
    same_answer(KernelNumbers::of(types).knows_helper(number), want)
}

/// Fails where a type of maps isn't known so.
fn knows_map_type(types: &Btf, number: u32, want: Option<bool>) -> Result<(), Fail> {
    same_answer(KernelNumbers::of(types).knows_map_type(number), want)
}

/// Fails where a helper has another name.
fn names_helper(types: &Btf, number: u32, want: Option<&str>) -> Result<(), Fail> {
    same_text(KernelNumbers::of(types).helper_name(number), want)
}

#[test]
fn helpers(rt: HostRuntime) -> Result<(), Fail> {
    let types = kernel(rt.alloc())?;
    for (number, known) in HELPERS.iter() {
        knows_helper(&types, *number, Some(*known))?;
    }
    Ok(())
}

#[test]
fn names(rt: HostRuntime) -> Result<(), Fail> {
    let types = kernel(rt.alloc())?;
    for (number, name) in NAMES.iter() {
        names_helper(&types, *number, *name)?;
    }
    Ok(())
}

#[test]
fn map_types(rt: HostRuntime) -> Result<(), Fail> {
    let types = kernel(rt.alloc())?;
    for (number, known) in MAP_TYPES.iter() {
        knows_map_type(&types, *number, Some(*known))?;
    }
    Ok(())
}

/// Types without the enumerations.
#[test]
fn nothing(rt: HostRuntime) -> Result<(), Fail> {
    let types = Btf::new(rt.alloc())?;
    knows_helper(&types, 1, None)?;
    knows_map_type(&types, 1, None)?;
    names_helper(&types, 1, None)
}

//! Types of externs that the kernel's configuration gives.

use super::{add_enumeration, add_int, add_section, add_variable};
use ebpf_btf::{Btf, BtfError, BtfType, DataSecEntry, Rows};
use std::alloc::Global;

/// An extern: its name, the id of its type, and whether it is weak.
pub type Extern = (&'static str, u32, bool);

/// The INTs 1 to 6, by their sizes and encodings: bool, char, unsigned char, short, int, unsigned long.
const INTS: [(u32, u32); 6] = [
    (1, 0x400_0008),
    (1, 0x100_0008),
    (1, 0x8),
    (2, 0x100_0010),
    (4, 0x100_0020),
    (8, 0x40),
];

/// The ARRAYs 10 to 12, by the types and numbers of their elements: of 20 chars, of none, of 3 bools.
const ARRAYS: [(u32, u32); 3] = [(2, 20), (2, 0), (1, 3)];

/// The ARRAYs 16 and 17: of 2^31 chars, of 3.
const MORE_ARRAYS: [(u32, u32); 2] = [(2, 0x8000_0000), (2, 3)];

fn add_array(types: &mut Btf, element_type: u32, len: u32) -> Result<u32, BtfError> {
    types.add_type(&BtfType::Array {
        name_offset: 0,
        element_type,
        index_type: 5,
        len,
    })
}

fn add_arrays(types: &mut Btf, arrays: &[(u32, u32)]) -> Result<(), BtfError> {
    for (element_type, len) in arrays {
        add_array(types, *element_type, *len)?;
    }
    Ok(())
}

/// An enumeration of 32 bits without variants.
fn add_narrow_enumeration(types: &mut Btf, name: &str) -> Result<u32, BtfError> {
    let name_offset = types.add_string(name)?;
    add_enumeration(types, name_offset, &[])
}

/// One of 64 bits.
fn add_wide_enumeration(types: &mut Btf, name: &str) -> Result<u32, BtfError> {
    let name_offset = types.add_string(name)?;
    types.add_type(&BtfType::Enum64 {
        name_offset,
        size: 8,
        kind_flag: false,
        variants: Rows::of(&[]),
    })
}

fn add_enumerations(types: &mut Btf) -> Result<(), BtfError> {
    add_narrow_enumeration(types, "libbpf_tristate")?;
    add_wide_enumeration(types, "libbpf_tristate")?;
    add_narrow_enumeration(types, "tristate")?;
    Ok(())
}

fn add_all(types: &mut Btf) -> Result<(), BtfError> {
    for (size, int_data) in INTS.iter() {
        add_int(types, *size, *int_data)?;
    }
    add_enumerations(types)?;
    add_arrays(types, &ARRAYS)?;
    types.add_type(&BtfType::Typedef {
        name_offset: 0,
        btf_type: 14,
    })?;
    types.add_type(&BtfType::Const {
        name_offset: 0,
        btf_type: 15,
    })?;
    types.add_type(&BtfType::Volatile {
        name_offset: 0,
        btf_type: 5,
    })?;
    add_arrays(types, &MORE_ARRAYS)
}

/// The types 1 to 17: bool, char, unsigned char, short, int, unsigned long, `libbpf_tristate` of 32 and of 64 bits, another
/// enumeration, arrays of 20 chars, of none, and of 3 bools, and a TYPEDEF of `const volatile int`, which are the types 14
/// and 15; arrays of 2^31 chars and of 3.
pub fn kconfig_types(alloc: Global) -> Result<Btf, BtfError> {
    let mut types = Btf::new(alloc)?;
    add_all(&mut types)?;
    Ok(types)
}

/// The linkage of a variable that is an extern.
const EXTERN: u32 = 2;

/// The variables of externs, and their entries as compilers write them.
fn add_variables(
    alloc: Global,
    types: &mut Btf,
    externs: &[Extern],
) -> Result<Vec<DataSecEntry>, BtfError> {
    let mut entries = Vec::new(alloc);
    for (name, btf_type, _) in externs {
        entries.push(DataSecEntry {
            btf_type: add_variable(types, name, *btf_type, EXTERN)?,
            offset: 0,
            size: 0,
        })?;
    }
    Ok(entries)
}

/// Adds the variables of externs, and a DATASEC of them.
pub fn add_externs(
    alloc: Global,
    types: &mut Btf,
    section: &str,
    externs: &[Extern],
) -> Result<u32, BtfError> {
    let entries = add_variables(alloc, types, externs)?;
    add_section(types, section, 0, &entries)
}

//! Types that tests are made of, each added by one call.
#![tactic(auto)]

pub mod externs;
pub mod functions;

use ebpf_btf::{Btf, BtfEnum, BtfError, BtfMember, BtfType, DataSecEntry, Rows};

/// An integer of so many bytes, with its encoding and bits.
pub fn add_int(btf: &mut Btf, size: u32, int_data: u32) -> Result<u32, BtfError> {
    btf.add_type(&BtfType::Int {
        name_offset: 0,
        size,
        int_data,
    })
}

/// A pointer to nothing.
pub fn add_pointer(btf: &mut Btf) -> Result<u32, BtfError> {
    btf.add_type(&BtfType::Ptr {
        name_offset: 0,
        btf_type: 0,
    })
}

/// A struct whose name is at an offset.
pub fn add_struct(
    btf: &mut Btf,
    name_offset: u32,
    size: u32,
    members: &[BtfMember],
) -> Result<u32, BtfError> {
    btf.add_type(&BtfType::Struct {
        name_offset,
        size,
        kind_flag: false,
        members: Rows::of(members),
    })
}

pub fn member(name_offset: u32, btf_type: u32, offset: u32) -> BtfMember {
    BtfMember {
        name_offset,
        btf_type,
        offset,
    }
}

/// A name for a type.
pub fn add_typedef(btf: &mut Btf, name: &str, btf_type: u32) -> Result<u32, BtfError> {
    let name_offset = btf.add_string(name)?;
    btf.add_type(&BtfType::Typedef {
        name_offset,
        btf_type,
    })
}

/// A function whose name is at an offset.
pub fn add_function(btf: &mut Btf, name_offset: u32) -> Result<u32, BtfError> {
    btf.add_type(&BtfType::Func {
        name_offset,
        btf_type: 0,
    })
}

/// An enumeration of 32 bits, whose name is at an offset.
pub fn add_enumeration(
    btf: &mut Btf,
    name_offset: u32,
    variants: &[BtfEnum],
) -> Result<u32, BtfError> {
    btf.add_type(&BtfType::Enum {
        name_offset,
        size: 4,
        kind_flag: false,
        variants: Rows::of(variants),
    })
}

/// A variable of a type.
pub fn add_variable(
    btf: &mut Btf,
    name: &str,
    btf_type: u32,
    linkage: u32,
) -> Result<u32, BtfError> {
    let name_offset = btf.add_string(name)?;
    btf.add_type(&BtfType::Var {
        name_offset,
        btf_type,
        linkage,
    })
}

/// A section of variables.
pub fn add_section(
    btf: &mut Btf,
    name: &str,
    size: u32,
    entries: &[DataSecEntry],
) -> Result<u32, BtfError> {
    let name_offset = btf.add_string(name)?;
    btf.add_type(&BtfType::DataSec {
        name_offset,
        size,
        entries: Rows::of(entries),
    })
}

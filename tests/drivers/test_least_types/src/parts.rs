use ebpf_base::{ByIndex, ByKey, ByName, BySection, Items, Text};
use ebpf_btf::{Btf, BtfEnum, BtfError, BtfMember, BtfType, Endianness, Rows};
use ebpf_btf_ext::BtfExt;
use ebpf_elf::SectionIndex;
use ebpf_model::Function;
use ebpf_object::Object;
use ebpf_parts::insn::bpf_insn;
use std::alloc::{AllocError, Global};
use test_types::functions::function_of;
use test_types::{add_enumeration, add_struct, member};

/// The kinds of relocations that are asked here, by their numbers.
pub const OFFSET: u32 = 0;

pub const FIELD_EXISTS: u32 = 2;

pub const TARGET_ID: u32 = 7;

pub const TYPE_EXISTS: u32 = 8;

pub const VARIANT: u32 = 11;

/// The offset of a name; 0 of none.
fn add_name(btf: &mut Btf, name: &str) -> Result<u32, BtfError> {
    if name.is_empty() {
        return Ok(0);
    }
    btf.add_string(name)
}

/// An integer with a name.
pub fn add_named_int(btf: &mut Btf, name: &str, size: u32) -> Result<u32, BtfError> {
    let name_offset = btf.add_string(name)?;
    btf.add_type(&BtfType::Int {
        name_offset,
        size,
        int_data: 32,
    })
}

/// A pointer to a type.
pub fn add_pointer_to(btf: &mut Btf, btf_type: u32) -> Result<u32, BtfError> {
    btf.add_type(&BtfType::Ptr {
        name_offset: 0,
        btf_type,
    })
}

/// An array.
pub fn add_array(btf: &mut Btf, element_type: u32, len: u32) -> Result<u32, BtfError> {
    btf.add_type(&BtfType::Array {
        name_offset: 0,
        element_type,
        index_type: 1,
        len,
    })
}

/// Members of these names and types, one each eight bytes.
fn members_of(
    alloc: Global,
    btf: &mut Btf,
    members: &[(&str, u32)],
) -> Result<Vec<BtfMember>, BtfError> {
    let mut all = Vec::new(alloc);
    let mut offset = 0u32;
    for (name, btf_type) in members {
        let name_offset = add_name(btf, *name)?;
        all.push(member(name_offset, *btf_type, offset))?;
        offset = offset.saturating_add(64);
    }
    Ok(all)
}

/// A struct with such members.
pub fn add_fields(
    alloc: Global,
    btf: &mut Btf,
    name: &str,
    members: &[(&str, u32)],
) -> Result<u32, BtfError> {
    let all = members_of(alloc, btf, members)?;
    let name_offset = add_name(btf, name)?;
    let count = (members.len() % 1000) as u32;
    add_struct(btf, name_offset, 8 * count, &all)
}

/// A struct with a bit field of three bits, at bit 5, behind a member of one byte.
pub fn add_bits(alloc: Global, btf: &mut Btf, name: &str, first: &str) -> Result<u32, BtfError> {
    let mut all = Vec::new(alloc);
    all.push(member(btf.add_string(first)?, 1, 0))?;
    all.push(member(btf.add_string("bits")?, 1, 0x0300_0025))?;
    let name_offset = btf.add_string(name)?;
    btf.add_type(&BtfType::Struct {
        name_offset,
        size: 8,
        kind_flag: true,
        members: Rows::of(all.as_slice()),
    })
}

/// An enumeration of variants with values.
pub fn add_variants(
    alloc: Global,
    btf: &mut Btf,
    name: &str,
    variants: &[(&str, u32)],
) -> Result<u32, BtfError> {
    let mut all = Vec::new(alloc);
    for (variant, value) in variants {
        let name_offset = btf.add_string(*variant)?;
        all.push(BtfEnum {
            name_offset,
            value: *value,
        })?;
    }
    let name_offset = btf.add_string(name)?;
    add_enumeration(btf, name_offset, all.as_slice())
}

/// Adds numbers to bytes, the low byte first.
fn add_numbers(bytes: &mut Vec<u8>, numbers: &[u32]) -> Result<(), AllocError> {
    for number in numbers {
        bytes.extend_from_slice(&number.to_le_bytes())?;
    }
    Ok(())
}

/// The `.BTF.ext` of one section of relocations.
fn ext_bytes(alloc: Global, records: &[[u32; 4]]) -> Result<Vec<u8>, AllocError> {
    let count = (records.len() % 1000) as u32;
    let mut bytes = Vec::new(alloc);
    add_numbers(
        &mut bytes,
        &[0x0001_eb9f, 32, 0, 0, 0, 0, 0, 12 + 16 * count],
    )?;
    add_numbers(&mut bytes, &[16, 0, count])?;
    for record in records {
        add_numbers(&mut bytes, record)?;
    }
    Ok(bytes)
}

/// The relocations of an object, each with the text of its access string.
fn ext_of(
    alloc: Global,
    local: &mut Btf,
    asked: &[(u32, &str, u32)],
) -> Result<BtfExt, BtfError> {
    let mut records = Vec::new(alloc);
    for (index, (type_id, access, kind)) in asked.iter().enumerate() {
        let access = local.add_string(*access)?;
        let offset = 8 * (index % 8) as u32;
        records.push([offset, *type_id, access, *kind])?;
    }
    let bytes = ext_bytes(alloc, records.as_slice())?;
    BtfExt::parse(alloc, &bytes, Endianness::Little, local)
}

/// The function `p`, of eight moves, by its key.
fn functions(alloc: Global) -> Result<ByKey<Function>, AllocError> {
    let mut instructions = Vec::new(alloc);
    for _move in 0..8 {
        instructions.push(bpf_insn {
            code: 0xb7,
            regs: 0,
            off: 0,
            imm: 1,
        })?;
    }
    let name = Text::from_str(alloc, "p")?;
    let mut functions = ByKey::new(alloc);
    functions.insert((3, 0), function_of(alloc, name, instructions))?;
    Ok(functions)
}

/// The section of the relocations, whose name is empty.
fn sections(alloc: Global) -> Result<ByName<SectionIndex>, AllocError> {
    let mut sections = ByName::new(alloc);
    sections.insert(String::new(alloc), SectionIndex(3))?;
    Ok(sections)
}

/// An object with types and relocations: the type, the access string and the kind of each.
pub fn object_of(
    alloc: Global,
    local: Btf,
    asked: &[(u32, &str, u32)],
) -> Result<Object, BtfError> {
    let mut local = local;
    let ext = ext_of(alloc, &mut local, asked)?;
    Ok(Object {
        endianness: Endianness::Little,
        license: Items::new(alloc),
        kernel_version: None,
        btf: Some(local),
        btf_ext: Some(ext),
        externs: ByName::new(alloc),
        maps: ByName::new(alloc),
        programs: ByName::new(alloc),
        functions: functions(alloc)?,
        symbol_table: ByIndex::new(alloc),
        relocations: BySection::new(alloc),
        section_infos: sections(alloc)?,
        exception_callbacks: ByKey::new(alloc),
    })
}

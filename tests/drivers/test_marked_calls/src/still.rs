//! Calls that take no memory, on a file, on numbers, maps and types. What they answer becomes numbers.

use crate::call::Call;
use ebpf_base::ByName;
use ebpf_btf::{Btf, BtfMember, BtfType, Rows};
use ebpf_core_candidates::types_are_compatible;
use ebpf_elf::{ElfFile, ElfReadError, ElfRelocationSection, ElfSection, ElfSymbol};
use ebpf_btf_ext::RelocationKind;
use ebpf_parts::maps::{Map, PinningType, bpf_map_info, bpf_map_type, parse_map_info};
use ebpf_parts::programs::{XdpAttachType, bpf_attach_type, bpf_prog_type};
use std::alloc::Global;
use std::io;

/// So many numbers more.
pub fn mix(mut seen: u64, numbers: &[u64]) -> u64 {
    for number in numbers {
        seen = seen.wrapping_mul(31).wrapping_add(*number);
    }
    seen
}

/// What is read of the relocations of a section.
fn of_offsets(seen: u64, section: &ElfSection<'_>) -> u64 {
    let mut seen = seen;
    for relocation in section.relocations() {
        seen = mix(seen, &[relocation.offset]);
    }
    seen
}

/// What is read of a section.
fn of_section(seen: u64, section: &ElfSection<'_>) -> u64 {
    let numbers = [
        section.index().0 as u64,
        section.flags(),
        section.address(),
        section.size(),
        u64::from(section.kind_number()),
        section.name().unwrap_or("").len() as u64,
        section.data().unwrap_or(&[]).len() as u64,
    ];
    of_offsets(mix(seen, &numbers), section)
}

/// What is read of a symbol.
fn of_symbol(seen: u64, symbol: &ElfSymbol<'_>) -> u64 {
    let numbers = [
        symbol.index() as u64,
        symbol.address(),
        symbol.size(),
        symbol.section_index().unwrap_or(0) as u64,
        symbol.name().unwrap_or("").len() as u64,
        u64::from(symbol.is_weak()),
        u64::from(symbol.is_definition()),
    ];
    mix(seen, &numbers)
}

/// What is read of the sections of a file.
fn of_sections(file: &ElfFile<'_>) -> u64 {
    let mut seen = 0;
    for section in file.sections() {
        seen = of_section(seen, &section);
    }
    seen
}

/// What is read of the symbols of a file.
fn of_symbols(seen: u64, file: &ElfFile<'_>) -> u64 {
    let mut seen = seen;
    for symbol in file.symbols() {
        seen = of_symbol(seen, &symbol);
    }
    seen
}

/// What is read of a relocation section.
fn of_relocation_section(seen: u64, section: &ElfRelocationSection<'_>) -> u64 {
    let mut seen = mix(seen, &[section.target() as u64]);
    for relocation in section.relocations() {
        seen = mix(seen, &[relocation.symbol_index as u64]);
    }
    seen
}

/// What is read of the relocation sections of a file.
fn of_relocation_sections(file: &ElfFile<'_>) -> u64 {
    let mut seen = 0;
    for section in file.relocation_sections() {
        seen = of_relocation_section(seen, &section);
    }
    seen
}

/// What is read of a file.
fn of_file(bytes: &[u8]) -> Result<(u64, u64), ElfReadError> {
    let file = ElfFile::parse(bytes)?;
    Ok((
        of_symbols(of_sections(&file), &file),
        of_relocation_sections(&file),
    ))
}

/// Reads a file.
fn read_file(bytes: &[u8], call: &Call<'_>) -> io::Result<()> {
    call.begin();
    call.tell(of_file(bytes))
}

/// What a number stands for, and a way of attaching.
fn read_number(number: u32, call: &Call<'_>) -> io::Result<()> {
    call.begin();
    let map = bpf_map_type::try_from(number);
    let program = bpf_prog_type::try_from(number);
    let pinning = PinningType::try_from(number);
    let relocation = RelocationKind::try_from(number);
    let attached = bpf_attach_type::from(XdpAttachType::CpuMap);
    call.tell((map, program, pinning, relocation, attached))
}

/// Calls on the bytes of a file, or on a number.
pub fn on_file(bytes: &[u8], call: &Call<'_>) -> io::Result<()> {
    match call.name {
        "elf" => read_file(bytes, call),
        "numbers" => read_number(call.number(), call),
        _ => call.miss(),
    }
}

/// What is read of a map.
fn of_map(seen: u64, map: &Map) -> u64 {
    let numbers = [
        u64::from(map.map_type()),
        u64::from(map.key_size()),
        u64::from(map.value_size()),
        u64::from(map.max_entries()),
        u64::from(map.map_flags()),
        map.map_extra(),
        map.data().len() as u64,
        map.section_index() as u64,
        u64::from(map.pinning() == PinningType::ByName),
        map.symbol_index().unwrap_or(0) as u64,
    ];
    mix(seen, &numbers)
}

/// What is read of the maps that objects of tests have.
pub fn of_maps(maps: &ByName<Map>) -> u64 {
    let mut seen = 0;
    for name in [".bss", ".data", ".rodata", "counts", "slots", "tables"] {
        if let Some(map) = maps.get(name) {
            seen = of_map(seen, map);
        }
    }
    seen
}

/// A map that is made by parameters and then changed.
pub fn changed_map(alloc: Global) -> u64 {
    let mut map = Map::new_from_params(alloc, 1, 4, 8, 16, 32);
    map.set_value_size(9);
    map.set_max_entries(17);
    map.data_mut().clear();
    of_map(0, &map)
}

/// A map of a kernel's `bpf_map_info`.
pub fn map_by_info(alloc: Global) -> u64 {
    let info = bpf_map_info {
        type_: 30,
        id: 7,
        btf_value_type_id: 1,
        ..Default::default()
    };
    of_map(0, &parse_map_info(alloc, info, PinningType::ByName))
}

/// What is read of the members of a type.
fn of_members(seen: u64, ty: &BtfType<'_>, members: &Rows<'_, BtfMember>) -> u64 {
    let mut seen = seen;
    for k in 0..members.len() {
        let member = members.at(k);
        let offset = u64::from(ty.member_bit_offset(&member));
        seen = mix(
            seen,
            &[offset, u64::from(ty.member_bit_field_size(&member))],
        );
    }
    seen
}

/// What is read of a type.
fn of_type(seen: u64, ty: &BtfType<'_>) -> u64 {
    let numbers = [
        u64::from(ty.name_offset()),
        u64::from(ty.size().unwrap_or(0)),
        u64::from(ty.btf_type().unwrap_or(0)),
        u64::from(ty.is_signed()),
        ty.variant_count().unwrap_or(0) as u64,
    ];
    let seen = mix(seen, &numbers);
    match ty.members() {
        Some(members) => of_members(seen, ty, &members),
        None => seen,
    }
}

/// What is read of the type with an id.
fn of_id(seen: u64, types: &Btf, id: u32) -> u64 {
    let resolved = types.resolve_type(id).unwrap_or(0);
    let size = types.type_size(id).unwrap_or(0);
    let fits = types_are_compatible(types, id, types, resolved).unwrap_or(false);
    let seen = mix(
        seen,
        &[u64::from(resolved), u64::from(size), u64::from(fits)],
    );
    let Ok(ty) = types.type_by_id(id) else {
        return seen;
    };
    of_type(seen, &ty)
}

/// What is read of the first types.
pub fn of_types(types: &Btf) -> u64 {
    let mut seen = types.len() as u64;
    for id in 0..100 {
        seen = of_id(seen, types, id);
    }
    seen
}

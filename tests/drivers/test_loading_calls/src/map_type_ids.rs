//! The types that maps are created with, by small types of an object.

use ebpf_base::Items;
use ebpf_btf::{Btf, BtfError};
use ebpf_load_info::{MapTypeIds, map_types};
use ebpf_parts::EbpfSectionKind;
use ebpf_parts::maps::{
    BtfMap, BtfMapDef, LegacyMap, Map, PinningType, bpf_map_def, bpf_map_info, parse_map_info,
};
use std::alloc::{AllocError, Global};
use std::test::Fail;
use test_types::{add_section, add_variable};

/// `.bss` of 8 bytes with size 0 in its DATASEC, `.data` of 8 with size 8, `.rodata` of 8 with size 4.
fn object_types(alloc: Global) -> Result<Btf, BtfError> {
    let mut types = Btf::new(alloc)?;
    add_variable(&mut types, ".bss", 0, 1)?;
    for (name, size) in [(".bss", 0), (".data", 8), (".rodata", 4), (".bss", 8)] {
        add_section(&mut types, name, size, &[])?;
    }
    Ok(types)
}

/// The map of a data section of 8 bytes, whose value has a size.
fn data_map(alloc: Global, kind: EbpfSectionKind, value_size: u32) -> Result<Map, AllocError> {
    Ok(Map::Legacy(LegacyMap {
        def: bpf_map_def {
            map_type: 2,
            key_size: 4,
            value_size,
            max_entries: 1,
            map_flags: 0,
            id: 0,
            pinning: PinningType::None,
        },
        inner_def: None,
        section_index: 3,
        section_kind: kind,
        symbol_index: None,
        bytes: Items::from_vec(vec![in alloc; 0u8; 8]?),
    }))
}

/// A map whose definition states the types 5 and 6.
fn stated_map(alloc: Global, map_type: u32) -> Map {
    let info = bpf_map_info {
        type_: map_type,
        id: 0,
        key_size: 4,
        value_size: 8,
        max_entries: 1,
        map_flags: 0,
        map_extra: 0,
        btf_key_type_id: 5,
        btf_value_type_id: 6,
    };
    parse_map_info(alloc, info, PinningType::None)
}

/// The types of maps that take no types of keys and values.
const UNTYPED: [u32; 14] = [4, 7, 8, 12, 13, 14, 15, 16, 17, 18, 22, 23, 25, 33];

/// Those that take both.
const TYPED: [u32; 20] = [
    0, 1, 2, 3, 5, 6, 9, 10, 11, 19, 20, 21, 24, 27, 28, 29, 30, 31, 32, 34,
];

/// Sections of data, the size of their maps' values, and the type of these.
const DATA: [(&str, EbpfSectionKind, u32, u32); 7] = [
    (".bss", EbpfSectionKind::Bss, 8, 2),
    (".bss", EbpfSectionKind::Bss, 16, 0),
    (".data", EbpfSectionKind::Data, 8, 3),
    (".data", EbpfSectionKind::Data, 4, 0),
    (".rodata", EbpfSectionKind::Rodata, 8, 0),
    (".rodata.str1.1", EbpfSectionKind::Rodata, 8, 0),
    (".data", EbpfSectionKind::Maps, 8, 0),
];

/// Fails where a map isn't created with these types.
fn is_created_with(types: &Btf, name: &str, map: &Map, key: u32, value: u32) -> Result<(), Fail> {
    let got = map_types(name, map, types);
    if got == (MapTypeIds { key, value }) {
        return Ok(());
    }
    Err(Fail::new(format_args!("{got:?} is not {key}, {value}")))
}

/// Fails where maps of some types, whose definitions state the types 5 and 6, aren't created with these.
fn are_stated(
    alloc: Global,
    types: &Btf,
    numbers: &[u32],
    key: u32,
    value: u32,
) -> Result<(), Fail> {
    for map_type in numbers {
        let map = stated_map(alloc, *map_type);
        is_created_with(types, ".data", &map, key, value)?;
    }
    Ok(())
}

#[test]
fn by_type_of_map(rt: HostRuntime) -> Result<(), Fail> {
    let alloc = rt.alloc();
    let types = object_types(alloc)?;
    are_stated(alloc, &types, &UNTYPED, 0, 0)?;
    are_stated(alloc, &types, &TYPED, 5, 6)?;
    are_stated(alloc, &types, &[26], 5, 0)
}

#[test]
fn of_data_sections(rt: HostRuntime) -> Result<(), Fail> {
    let types = object_types(rt.alloc())?;
    for (name, kind, value_size, value) in DATA.iter() {
        let map = data_map(rt.alloc(), *kind, *value_size)?;
        is_created_with(&types, name, &map, 0, *value)?;
    }
    Ok(())
}

/// The definition of a map of a type that states these types.
fn definition(map_type: u32, key: u32, value: u32) -> BtfMapDef {
    BtfMapDef {
        map_type,
        key_size: 4,
        value_size: 4,
        max_entries: 1,
        map_flags: 0,
        map_extra: 0,
        pinning: PinningType::None,
        btf_key_type_id: key,
        btf_value_type_id: value,
    }
}

/// A map with an inner one.
fn outer_map(alloc: Global) -> Map {
    Map::Btf(BtfMap {
        def: definition(12, 5, 6),
        inner_def: Some(definition(1, 7, 8)),
        section_index: 0,
        symbol_index: 0,
        bytes: Items::new(alloc),
    })
}

/// Fails where the inner map isn't created with the types that it states.
fn inner_is_stated(types: &Btf, map: &Map) -> Result<(), Fail> {
    match map.inner()? {
        Some(inner) => is_created_with(types, "m", &inner, 7, 8),
        None => Err(Fail::new("no inner map")),
    }
}

/// An inner map is asked as any other.
#[test]
fn of_inner_maps(rt: HostRuntime) -> Result<(), Fail> {
    let types = object_types(rt.alloc())?;
    let map = outer_map(rt.alloc());
    is_created_with(&types, "m", &map, 0, 0)?;
    inner_is_stated(&types, &map)
}

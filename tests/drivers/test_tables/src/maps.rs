//! Maps, line by line.

use crate::lines::{Line, put_numbers};
use ebpf_base::ByName;
use ebpf_parts::maps::{Map, PinningType, bpf_map_info, parse_map_info};
use std::alloc::{AllocError, Global};
use test_cases::{Action, no_action};

/// The numbers of a map.
fn put_map_numbers(text: &mut String, map: &Map) -> Result<(), AllocError> {
    let numbers = [
        ("type", u64::from(map.map_type())),
        ("key", u64::from(map.key_size())),
        ("value", u64::from(map.value_size())),
        ("entries", u64::from(map.max_entries())),
        ("flags", u64::from(map.map_flags())),
    ];
    put_numbers(text, &numbers)
}

/// The symbol of a map and its data.
fn put_data(text: &mut String, map: &Map) -> Result<(), AllocError> {
    let (symbol, data) = (map.symbol_index(), map.data());
    write!(text, " symbol {symbol:?} data {data:?}")
}

impl Line for Map {
    fn put_line(&self, text: &mut String, name: &str) -> Result<(), AllocError> {
        write!(text, "map {name}")?;
        put_map_numbers(text, self)?;
        let pinning = self.pinning();
        write!(text, " {pinning:?}")?;
        put_data(text, self)?;
        writeln!(text)
    }
}

/// How a map is kept, and its section.
fn put_section(text: &mut String, map: &Map) -> Result<(), AllocError> {
    let (pinning, section, kind) = (map.pinning(), map.section_index(), map.section_kind());
    write!(text, " pinning {pinning:?} section {section} {kind:?}")
}

/// What may be read of a map.
fn put_map_text(text: &mut String, map: &Map) -> Result<(), AllocError> {
    put_map_numbers(text, map)?;
    put_numbers(text, &[("extra", map.map_extra())])?;
    put_section(text, map)?;
    put_data(text, map)
}

/// What may be read of a map, and the id that a legacy map keeps.
fn map_text_with_id(alloc: Global, map: &Map) -> Result<String, AllocError> {
    let mut text = String::new(alloc);
    put_map_text(&mut text, map)?;
    if let Map::Legacy(legacy) = map {
        put_numbers(&mut text, &[("id", u64::from(legacy.def.id))])?;
    }
    Ok(text)
}

/// A line for the id of each legacy map, in byte order of their names.
pub fn put_map_ids(alloc: Global, text: &mut String, maps: &ByName<Map>) -> Result<(), AllocError> {
    for name in maps.names(alloc)? {
        if let Some(Map::Legacy(legacy)) = maps.get(name) {
            let id = legacy.def.id;
            writeln!(text, "map {name} id {id}")?;
        }
    }
    Ok(())
}

/// A Bloom filter, as a kernel's `bpf_map_info` has it.
fn bloom_filter(id: u32, value_type: u32) -> bpf_map_info {
    bpf_map_info {
        type_: 30,
        id,
        value_size: 4,
        max_entries: 64,
        map_extra: 3,
        btf_value_type_id: value_type,
        ..Default::default()
    }
}

/// What is made of a Bloom filter whose `bpf_map_info` has an id and a value type.
pub fn map_info(alloc: Global, action: &Action<'_>) -> Result<String, AllocError> {
    let (Some(id), Some(value_type)) = (action.small_number(0), action.small_number(1)) else {
        return no_action(alloc);
    };
    let pinning = if action.word(2) == "ByName" {
        PinningType::ByName
    } else {
        PinningType::None
    };
    let map = parse_map_info(alloc, bloom_filter(id, value_type), pinning);
    map_text_with_id(alloc, &map)
}

/// What may be read of a map, and whether it holds others.
fn map_text_with_inner(alloc: Global, map: &Map) -> Result<String, AllocError> {
    let mut text = String::new(alloc);
    put_map_text(&mut text, map)?;
    let holds = map.inner()?.is_some();
    write!(text, " holds a map {holds}")?;
    Ok(text)
}

/// What is made of a map by its parameters that is changed and then copied.
pub fn map_copy(alloc: Global) -> Result<String, AllocError> {
    let mut map = Map::new_from_params(alloc, 1, 4, 8, 16, 32);
    map.set_value_size(9);
    map.set_max_entries(17);
    map.data_mut().push(5)?;
    let copy = map.clone()?;
    map_text_with_inner(alloc, &copy)
}

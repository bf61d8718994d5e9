//! The extern declarations and BTF-defined maps of an object, line by line.

use crate::lines::{Line, put_numbers};
use ebpf_base::ByName;
use ebpf_btf::Btf;
use ebpf_model::ExternDesc;
use ebpf_parts::maps::{BtfMap, BtfMapDef, Map};
use std::alloc::{AllocError, Global};

/// What is said of a map, as words: each size beside the id of its type.
fn put_definition(text: &mut String, def: &BtfMapDef) -> Result<(), AllocError> {
    let kind = def.map_type;
    let (key, key_type) = (def.key_size, def.btf_key_type_id);
    let (value, value_type) = (def.value_size, def.btf_value_type_id);
    write!(
        text,
        " type {kind} key {key}:{key_type} value {value}:{value_type}"
    )?;
    let (entries, flags) = (u64::from(def.max_entries), u64::from(def.map_flags));
    put_numbers(
        text,
        &[
            ("entries", entries),
            ("flags", flags),
            ("extra", def.map_extra),
        ],
    )?;
    let pinning = def.pinning;
    writeln!(text, " {pinning:?}")
}

/// The rest of a line for a map.
fn put_btf_map(text: &mut String, map: &BtfMap) -> Result<(), AllocError> {
    let (section, symbol) = (map.section_index as u64, map.symbol_index as u64);
    put_numbers(text, &[("in", section), ("symbol", symbol)])?;
    put_definition(text, &map.def)
}

/// A line for a BTF-defined map, and one for the maps that it holds.
fn put_map(text: &mut String, name: &str, map: &Map) -> Result<(), AllocError> {
    if let Map::Btf(map) = map {
        write!(text, "map {name}")?;
        put_btf_map(text, map)?;
    }
    if let Some(Map::Btf(inner)) = &map.inner()? {
        write!(text, "inner")?;
        put_btf_map(text, inner)?;
    }
    Ok(())
}

/// A line for each BTF-defined map, in byte order of their names.
pub fn put_btf_defined_maps(
    alloc: Global,
    text: &mut String,
    maps: &ByName<Map>,
) -> Result<(), AllocError> {
    for name in maps.names(alloc)? {
        if let Some(map) = maps.get(name) {
            put_map(text, name, map)?;
        }
    }
    Ok(())
}

impl Line for ExternDesc {
    fn put_line(&self, text: &mut String, name: &str) -> Result<(), AllocError> {
        let (id, typed, weak) = (self.btf_id, self.is_typed, self.is_weak);
        write!(text, "extern {name} type {id} typed {typed} weak {weak}")?;
        let (resolved, kernel, address) = (self.is_resolved, self.kernel_btf_id, self.ksym_addr);
        writeln!(text, " resolved {resolved} {kernel:?} {address:?}")
    }
}

/// A line for each type from an id on, with its name.
pub fn put_types(text: &mut String, btf: &Btf, from: usize) -> Result<(), AllocError> {
    for id in from..btf.len() {
        let ty = btf.at(id);
        match btf.type_name(&ty) {
            Ok(name) => writeln!(text, "{id} {name}: {ty:?}")?,
            Err(error) => writeln!(text, "{id} {error:?}: {ty:?}")?,
        }
    }
    Ok(())
}

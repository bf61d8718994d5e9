//! The map of externs, and their symbols.

use super::asked::{Question, ask};
use super::objects::kconfig_object;
use ebpf_base::{ByName, Items};
use ebpf_kconfig::{KconfigError, define_kconfig};
use ebpf_load_info::map_types;
use ebpf_model::Symbol;
use ebpf_object::Object;
use ebpf_parts::maps::Map;
use std::alloc::{AllocError, Global};
use std::test::Fail;
use test_same::{same, same_number, shows};
use test_types::externs::Extern;

/// An extern's name, and its value.
pub type Value<'a> = (&'a str, &'a [u8]);

/// Values by name.
fn values_of(alloc: Global, given: &[Value<'_>]) -> Result<ByName<Items<u8>>, AllocError> {
    let mut values = ByName::new(alloc);
    for (name, bytes) in given {
        let value = Items::from_vec(Vec::from_slice(alloc, bytes)?);
        values.insert(String::from_str(alloc, name)?, value)?;
    }
    Ok(values)
}

/// Defines externs.
fn define(object: &mut Object, values: &ByName<Items<u8>>) -> Result<(), KconfigError> {
    define_kconfig(object, values)
}

/// Fails where defining the externs by these values doesn't say this.
pub fn defines(
    alloc: Global,
    object: &mut Object,
    given: &[Value<'_>],
    want: &str,
) -> Result<(), Fail> {
    let values = values_of(alloc, given)?;
    shows(alloc, &define(object, &values), want)
}

/// Adds a symbol's line: its name, its section, its address, and whether it is defined.
fn add_symbol(text: &mut String, symbol: &Symbol) -> Result<(), AllocError> {
    let (name, section) = (&symbol.name, symbol.section_index);
    let (address, is_definition) = (symbol.address, symbol.is_definition);
    writeln!(text, "{name:?} {section:?} {address} {is_definition}")
}

/// Fails where these lines aren't those of the symbols.
pub fn has_symbols(alloc: Global, object: &Object, want: &str) -> Result<(), Fail> {
    let mut text = String::new(alloc);
    for index in 0..20 {
        if let Some(symbol) = object.symbol_table.get(index) {
            add_symbol(&mut text, symbol)?;
        }
    }
    same(text.as_str(), want)
}

/// Fails where an object doesn't have so many maps.
pub fn has_maps(object: &Object, count: u64) -> Result<(), Fail> {
    same_number(object.maps.len() as u64, count)
}

/// What compilers make of eleven externs, in the order of their entries.
const COMPILED: [Extern; 11] = [
    ("CONFIG_HZ", 13, true),
    ("CONFIG_LONG", 6, true),
    ("CONFIG_AULONG", 6, true),
    ("CONFIG_SHORT", 4, true),
    ("CONFIG_CH", 2, true),
    ("CONFIG_XFS_FS", 7, true),
    ("LINUX_KERNEL_VERSION", 5, true),
    ("LINUX_HAS_BPF_COOKIE", 5, true),
    ("CONFIG_BPF_SYSCALL", 1, true),
    ("CONFIG_STR", 10, true),
    ("CONFIG_ASTR", 17, true),
];

/// Their symbols, once defined, at the offsets that libbpf 1.1 writes into the DATASEC.
const PLACES: &str = "Some(\"CONFIG_HZ\") Some(0) 16 true\n\
    Some(\"CONFIG_LONG\") Some(0) 8 true\n\
    Some(\"CONFIG_AULONG\") Some(0) 0 true\n\
    Some(\"CONFIG_SHORT\") Some(0) 32 true\n\
    Some(\"CONFIG_CH\") Some(0) 35 true\n\
    Some(\"CONFIG_XFS_FS\") Some(0) 20 true\n\
    Some(\"LINUX_KERNEL_VERSION\") Some(0) 28 true\n\
    Some(\"LINUX_HAS_BPF_COOKIE\") Some(0) 24 true\n\
    Some(\"CONFIG_BPF_SYSCALL\") Some(0) 34 true\n\
    Some(\"CONFIG_STR\") Some(0) 39 true\n\
    Some(\"CONFIG_ASTR\") Some(0) 36 true\n";

/// The type of the values of the map of externs; none where the object has no types.
fn value_type(object: &Object, map: &Map) -> Option<u32> {
    match &object.btf {
        Some(types) => Some(map_types(".kconfig", map, types).value),
        None => None,
    }
}

/// Fails where a map has another definition: its type, the sizes of its keys and values, how many there are, and its flags.
fn is_defined(alloc: Global, map: &Map, want: &str) -> Result<(), Fail> {
    let sizes = (map.key_size(), map.value_size(), map.max_entries());
    shows(alloc, &(map.map_type(), sizes, map.map_flags()), want)
}

/// Fails where a map stands elsewhere, or has data of another length or another byte at offset 16.
fn contains(alloc: Global, map: &Map, want: &str) -> Result<(), Fail> {
    let data = map.data();
    let found = (
        map.section_index(),
        map.symbol_index(),
        data.len(),
        data.get(16),
    );
    shows(alloc, &found, want)
}

/// Fails where a map isn't that of the externs above, whose DATASEC is the type 29.
fn is_map(alloc: Global, object: &Object, map: &Map) -> Result<(), Fail> {
    is_defined(alloc, map, "(2, (4, 59, 1), 128)")?;
    contains(alloc, map, "(0, None, 59, Some(250))")?;
    same_number(u64::from(value_type(object, map).unwrap_or(0)), 29)
}

/// Fails where an object doesn't have that map.
fn has_map(alloc: Global, object: &Object) -> Result<(), Fail> {
    match object.maps.get(".kconfig") {
        Some(map) => is_map(alloc, object, map),
        None => Err(Fail::new("no map")),
    }
}

/// Fails where the externs aren't defined as libbpf defines them.
pub fn is_as_libbpf(alloc: Global, object: &mut Object) -> Result<(), Fail> {
    defines(alloc, object, &[("CONFIG_HZ", &[250, 0, 0, 0])], "Ok(())")?;
    has_symbols(alloc, object, PLACES)?;
    has_map(alloc, object)
}

#[test]
fn places_externs_as_libbpf_does(rt: HostRuntime) -> Result<(), Fail> {
    let made = kconfig_object(rt.alloc(), &COMPILED);
    ask(rt.alloc(), made, Question::AsLibbpf)
}

/// Two weak externs of 2 GB each.
const HUGE: [Extern; 2] = [("CONFIG_A", 16, true), ("CONFIG_B", 16, true)];

/// Fails where an object isn't refused as too large.
pub fn is_too_large(alloc: Global, object: &mut Object) -> Result<(), Fail> {
    defines(alloc, object, &[], "Err(TooLarge)")
}

#[test]
fn refuses_too_much_data(rt: HostRuntime) -> Result<(), Fail> {
    let made = kconfig_object(rt.alloc(), &HUGE);
    ask(rt.alloc(), made, Question::TooLarge)
}

/// Fails where an object without externs isn't left as it was.
pub fn is_left(alloc: Global, object: &mut Object) -> Result<(), Fail> {
    defines(alloc, object, &[], "Ok(())")?;
    has_maps(object, 0)
}

#[test]
fn nothing_changes_without_externs(rt: HostRuntime) -> Result<(), Fail> {
    let made = kconfig_object(rt.alloc(), &[]);
    ask(rt.alloc(), made, Question::Left)
}

//! Objects with externs of the kernel's configuration.

use ebpf_base::{ByIndex, ByKey, ByName, BySection, Endianness, Items, Text};
use ebpf_btf::{Btf, BtfError};
use ebpf_elf::SymbolKind;
use ebpf_model::Symbol;
use ebpf_object::Object;
use std::alloc::{AllocError, Global};
use test_types::externs::{Extern, add_externs, kconfig_types};

/// Types with a section `.kconfig` of externs.
fn types_of(alloc: Global, externs: &[Extern]) -> Result<Btf, BtfError> {
    let mut types = kconfig_types(alloc)?;
    add_externs(alloc, &mut types, ".kconfig", externs)?;
    Ok(types)
}

/// The symbol of an extern.
fn symbol_of(alloc: Global, index: usize, wanted: &Extern) -> Result<Symbol, AllocError> {
    let (name, _, is_weak) = *wanted;
    Ok(Symbol {
        index,
        section_index: None,
        name: Some(Text::from_str(alloc, name)?),
        address: 0,
        size: 0,
        kind: SymbolKind::Unknown,
        is_definition: false,
        is_weak,
    })
}

/// The symbols of externs, in their order from 0 on.
fn symbols_of(alloc: Global, externs: &[Extern]) -> Result<ByIndex<Symbol>, AllocError> {
    let mut symbols = ByIndex::new(alloc);
    for (index, wanted) in externs.iter().enumerate() {
        symbols.insert(index, symbol_of(alloc, index, wanted)?)?;
    }
    Ok(symbols)
}

/// An object of types and symbols alone.
pub fn object_with(alloc: Global, types: Option<Btf>, symbols: ByIndex<Symbol>) -> Object {
    Object {
        endianness: Endianness::Little,
        license: Items::new(alloc),
        kernel_version: None,
        btf: types,
        btf_ext: None,
        externs: ByName::new(alloc),
        maps: ByName::new(alloc),
        programs: ByName::new(alloc),
        functions: ByKey::new(alloc),
        symbol_table: symbols,
        relocations: BySection::new(alloc),
        section_infos: ByName::new(alloc),
        exception_callbacks: ByKey::new(alloc),
    }
}

/// An object whose section `.kconfig` has these externs, and their symbols.
pub fn kconfig_object(alloc: Global, externs: &[Extern]) -> Result<Object, BtfError> {
    let types = types_of(alloc, externs)?;
    let symbols = symbols_of(alloc, externs)?;
    Ok(object_with(alloc, Some(types), symbols))
}

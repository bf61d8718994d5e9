//! An object, and what it is given: a map, sections, an extern, a symbol and a function.

use ebpf_base::{ByIndex, ByKey, ByName, BySection, Items, Text};
use ebpf_elf::{SectionIndex, SymbolKind};
use ebpf_btf_ext::{FuncSecInfo, LineSecInfo};
use ebpf_object::Object;
use ebpf_object::maps::{LegacyMap, Map, PinningType, bpf_map_def};
use ebpf_object::obj::{EbpfSectionKind, Endianness, ExternDesc, Function, Symbol};
use std::alloc::{AllocError, Global};

/// The map of the variables of section 5.
fn map_of_variables(alloc: Global) -> Map {
    Map::Legacy(LegacyMap {
        def: bpf_map_def {
            map_type: 2,
            key_size: 4,
            value_size: 4,
            max_entries: 1,
            map_flags: 0,
            id: 0,
            pinning: PinningType::None,
        },
        inner_def: None,
        section_index: 5,
        section_kind: EbpfSectionKind::Bss,
        symbol_index: None,
        bytes: Items::new(alloc),
    })
}

/// Adds the map by its name.
fn put_map(alloc: Global, maps: &mut ByName<Map>) -> Result<(), AllocError> {
    let name = String::from_str(alloc, ".bss")?;
    maps.insert(name, map_of_variables(alloc))?;
    Ok(())
}

/// Adds the numbers of three sections.
fn put_sections(alloc: Global, sections: &mut ByName<SectionIndex>) -> Result<(), AllocError> {
    let names = [".bss", ".debug_str", "kprobe/p"];
    for (number, name) in names.iter().enumerate() {
        let name = String::from_str(alloc, name)?;
        sections.insert(name, SectionIndex(5 + number))?;
    }
    Ok(())
}

/// Adds an extern whose type needs the kernel's.
fn put_extern(alloc: Global, externs: &mut ByName<ExternDesc>) -> Result<(), AllocError> {
    let name = String::from_str(alloc, "bpf_task_acquire")?;
    let desc = ExternDesc {
        btf_id: 3,
        is_typed: true,
        is_weak: false,
        kernel_btf_id: None,
        ksym_addr: None,
        is_resolved: false,
    };
    externs.insert(name, desc)?;
    Ok(())
}

/// Adds the symbol of a variable of section 5.
fn put_symbol(alloc: Global, symbols: &mut ByIndex<Symbol>) -> Result<(), AllocError> {
    let symbol = Symbol {
        index: 12,
        section_index: Some(5),
        name: Some(Text::from_str(alloc, "total")?),
        address: 0,
        size: 4,
        kind: SymbolKind::Data,
        is_definition: true,
        is_weak: false,
    };
    symbols.insert(12, symbol)?;
    Ok(())
}

/// The function `p` of section 7.
fn function(alloc: Global) -> Result<Function, AllocError> {
    Ok(Function {
        address: 0,
        name: Text::from_str(alloc, "p")?,
        section_index: SectionIndex(7),
        section_offset: 0,
        instructions: Items::new(alloc),
        func_info: FuncSecInfo {
            sec_name_offset: 0,
            num_info: 0,
            func_info: Items::new(alloc),
        },
        line_info: LineSecInfo {
            sec_name_offset: 0,
            num_info: 0,
            line_info: Items::new(alloc),
        },
        func_info_rec_size: 0,
        line_info_rec_size: 0,
    })
}

/// Adds the function by its key.
fn put_function(alloc: Global, functions: &mut ByKey<Function>) -> Result<(), AllocError> {
    functions.insert((7, 0), function(alloc)?)?;
    Ok(())
}

/// An object without anything.
pub fn empty_object(alloc: Global) -> Object {
    Object {
        endianness: Endianness::Little,
        license: Items::new(alloc),
        kernel_version: None,
        btf: None,
        btf_ext: None,
        externs: ByName::new(alloc),
        maps: ByName::new(alloc),
        programs: ByName::new(alloc),
        functions: ByKey::new(alloc),
        symbol_table: ByIndex::new(alloc),
        relocations: BySection::new(alloc),
        section_infos: ByName::new(alloc),
        exception_callbacks: ByKey::new(alloc),
    }
}

/// Gives an object what has names.
pub fn put_names(alloc: Global, object: &mut Object) -> Result<(), AllocError> {
    put_map(alloc, &mut object.maps)?;
    put_sections(alloc, &mut object.section_infos)?;
    put_extern(alloc, &mut object.externs)?;
    put_symbol(alloc, &mut object.symbol_table)?;
    put_function(alloc, &mut object.functions)
}

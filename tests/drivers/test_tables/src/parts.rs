//! Programs, sections, functions, symbols and relocations, line by line.

use crate::lines::{Line, put_numbers};
use ebpf_base::{ByIndex, ByKey, ByOffset, BySection};
use ebpf_elf::SectionIndex;
use ebpf_model::{Function, Program, Relocation, Symbol};
use std::alloc::{AllocError, Global};

impl Line for Program {
    fn put_line(&self, text: &mut String, name: &str) -> Result<(), AllocError> {
        let (section, address) = self.function_key();
        let kind = self.section;
        writeln!(text, "program {name} {kind:?} at {section} {address}")
    }
}

impl Line for SectionIndex {
    fn put_line(&self, text: &mut String, name: &str) -> Result<(), AllocError> {
        let index = self.0;
        writeln!(text, "section {index} {name}")
    }
}

/// A line for each function, by its key.
pub fn put_functions(text: &mut String, functions: &ByKey<Function>) -> Result<(), AllocError> {
    for ((section, address), function) in functions.iter() {
        let name = function.name.as_str();
        write!(text, "function {name} at {section} {address}")?;
        let (offset, slots) = (function.section_offset, function.instructions.len());
        put_numbers(text, &[("offset", offset as u64), ("slots", slots as u64)])?;
        writeln!(text)?;
    }
    Ok(())
}

/// A line for each symbol, by its number.
pub fn put_symbols(
    alloc: Global,
    text: &mut String,
    symbols: &ByIndex<Symbol>,
) -> Result<(), AllocError> {
    for index in symbols.indices(alloc)? {
        if let Some(symbol) = symbols.get(index) {
            let (kind, section) = (symbol.kind, symbol.section_index);
            write!(text, "symbol {index} {kind:?} in {section:?}")?;
            let (size, definition) = (symbol.size, symbol.is_definition);
            writeln!(text, " size {size} defined {definition}")?;
        }
    }
    Ok(())
}

/// A line for each relocation, by its section and its offset.
pub fn put_relocations(
    text: &mut String,
    relocations: &BySection<ByOffset<Relocation>>,
) -> Result<(), AllocError> {
    for (section, relocations) in relocations.iter() {
        for (offset, relocation) in relocations.iter() {
            let (size, symbol) = (relocation.size, relocation.symbol_index);
            writeln!(
                text,
                "relocation at {section} {offset} size {size} symbol {symbol}"
            )?;
        }
    }
    Ok(())
}

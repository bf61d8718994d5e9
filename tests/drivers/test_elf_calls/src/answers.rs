//! What a file answers.

use super::file::{Field, file_with};
use ebpf_base::Endianness;
use ebpf_elf::{ElfFile, ElfReadError, ElfSection, ElfSymbol, SectionIndex};
use std::alloc::{AllocError, Global};
use std::test::Fail;
use test_same::same;

/// A section that a file has by a name.
pub fn section_named<'a>(file: &ElfFile<'a>, name: &str) -> Option<ElfSection<'a>> {
    file.section_by_name(name)
}

/// How many sections a file has, how many symbols, and how many sections of relocations.
fn counts(alloc: Global, file: &ElfFile<'_>) -> Result<String, AllocError> {
    let sections = file.sections().count();
    let symbols = file.symbols().count();
    let tables = file.relocation_sections().count();
    format!(in alloc; "{:?} {sections} {symbols} {tables}", file.endianness())
}

/// The index, kind, flags, address and size of a section.
fn fields(alloc: Global, section: &ElfSection<'_>) -> Result<String, AllocError> {
    let SectionIndex(index) = section.index();
    let kind = section.kind_number();
    let flags = section.flags();
    let address = section.address();
    format!(in alloc; "{index} {kind} {flags} {address} {}", section.size())
}

/// The length of a section's data, or why there is none.
fn data_length(section: &ElfSection<'_>) -> Result<usize, ElfReadError> {
    Ok(section.data()?.len())
}

/// The index, name, section, address and size of a symbol.
fn symbol_fields(alloc: Global, symbol: &ElfSymbol<'_>) -> Result<String, AllocError> {
    let name = symbol.name();
    let section = symbol.section_index();
    let address = symbol.address();
    format!(in alloc;
        "{} {name:?} {section:?} {address} {}",
        symbol.index(),
        symbol.size()
    )
}

/// The kind of a symbol, whether it is a definition, and whether it is weak.
fn symbol_kind(alloc: Global, symbol: &ElfSymbol<'_>) -> Result<String, AllocError> {
    let is_definition = symbol.is_definition();
    format!(in alloc; "{:?} {is_definition} {}", symbol.kind(), symbol.is_weak())
}

/// The relocations of a section: of each its offset, its size and the index of its symbol.
fn relocations(alloc: Global, section: &ElfSection<'_>) -> Result<String, AllocError> {
    let mut text = String::new(alloc);
    for relocation in section.relocations() {
        let symbol_index = relocation.symbol_index;
        write!(
            text,
            "{} {} {symbol_index};",
            relocation.offset, relocation.size
        )?;
    }
    Ok(text)
}

/// The indices of the sections that have relocations.
fn targets(alloc: Global, file: &ElfFile<'_>) -> Result<String, AllocError> {
    let mut text = String::new(alloc);
    for section in file.relocation_sections() {
        write!(text, "{} ", section.target())?;
    }
    Ok(text)
}

/// What is asked of a file: a text of it.
#[derive(Clone, Copy)]
pub enum Question<'a> {
    /// How many sections and symbols it has.
    Counts,
    /// The indices of the sections that have relocations.
    Targets,
    /// The last symbol's fields.
    Symbol,
    /// The last symbol's kind.
    Kind,
    /// The fields of the first section of this name.
    Fields(&'a str),
    /// The length of its data.
    DataLength(&'a str),
    /// Its relocations.
    Relocations(&'a str),
    /// The name of the second section.
    SecondName,
}

/// The answer on the last symbol.
fn last_answer(
    alloc: Global,
    file: &ElfFile<'_>,
    question: Question<'_>,
) -> Result<String, AllocError> {
    match (file.symbols().last(), question) {
        (Some(symbol), Question::Symbol) => symbol_fields(alloc, &symbol),
        (Some(symbol), _) => symbol_kind(alloc, &symbol),
        (None, _) => format!(in alloc; "no symbol"),
    }
}

/// The answer on the first section of a name.
fn named_answer(
    alloc: Global,
    file: &ElfFile<'_>,
    name: &str,
    question: Question<'_>,
) -> Result<String, AllocError> {
    let Some(section) = section_named(file, name) else {
        return format!(in alloc; "no section");
    };
    match question {
        Question::DataLength(_) => format!(in alloc; "{:?}", data_length(&section)),
        Question::Relocations(_) => relocations(alloc, &section),
        _ => fields(alloc, &section),
    }
}

/// The name of the second section.
fn second_name(alloc: Global, file: &ElfFile<'_>) -> Result<String, AllocError> {
    match file.sections().nth(1) {
        Some(section) => format!(in alloc; "{:?}", section.name()),
        None => format!(in alloc; "no section"),
    }
}

fn file_answer(
    alloc: Global,
    file: &ElfFile<'_>,
    question: Question<'_>,
) -> Result<String, AllocError> {
    match question {
        Question::Counts => counts(alloc, file),
        Question::Targets => targets(alloc, file),
        Question::SecondName => second_name(alloc, file),
        Question::Symbol | Question::Kind => last_answer(alloc, file, question),
        Question::Fields(name) | Question::DataLength(name) | Question::Relocations(name) => {
            named_answer(alloc, file, name, question)
        }
    }
}

/// The answer on the file of these bytes, or why they are none.
fn answer(alloc: Global, bytes: &[u8], question: Question<'_>) -> Result<String, AllocError> {
    match ElfFile::parse(bytes) {
        Ok(file) => file_answer(alloc, &file, question),
        Err(error) => format!(in alloc; "{error:?}"),
    }
}

/// Fails where the answer on the file with some fields changed isn't this.
pub fn answers(
    alloc: Global,
    order: Endianness,
    changes: &[Field],
    question: Question<'_>,
    want: &str,
) -> Result<(), Fail> {
    let bytes = file_with(alloc, order, changes)?;
    let text = answer(alloc, &bytes, question)?;
    same(text.as_str(), want)
}

/// In both byte orders.
pub fn answers_in_both(
    alloc: Global,
    changes: &[Field],
    question: Question<'_>,
    want: &str,
) -> Result<(), Fail> {
    answers(alloc, Endianness::Little, changes, question, want)?;
    answers(alloc, Endianness::Big, changes, question, want)
}

//! Calls on the bytes of a file, on its sections and on names.

use crate::call::{Call, say};
use ebpf_btf::{Btf, Endianness};
use ebpf_elf::{ElfFile, ElfSection};
use ebpf_btf_ext::BtfExt;
use ebpf_parts::insn::copy_instructions;
use ebpf_parts::{ProgramSection, Section};
use std::io;

/// A section with its relocations.
fn section(section: &ElfSection<'_>, call: &Call<'_>) -> io::Result<()> {
    call.begin();
    call.tell(Section::from_elf(call.rt.alloc(), section))
}

/// The section that the word names.
fn named_section(file: &ElfFile<'_>, call: &Call<'_>) -> io::Result<()> {
    match file.section_by_name(call.word) {
        Some(found) => section(&found, call),
        None => say(call.rt, "no section ", call.word),
    }
}

/// The bytes of a section by name.
fn data_of<'a>(file: &ElfFile<'a>, name: &str) -> &'a [u8] {
    match file.section_by_name(name) {
        Some(section) => section.data().unwrap_or(&[]),
        None => &[],
    }
}

/// What is said of instructions, with the names in these types.
fn ext_with(data: &[u8], order: Endianness, types: &Btf, call: &Call<'_>) -> io::Result<()> {
    call.begin();
    call.tell(BtfExt::parse(call.rt.alloc(), data, order, types))
}

/// What is said of instructions.
fn ext(file: &ElfFile<'_>, call: &Call<'_>) -> io::Result<()> {
    let (data, order) = (data_of(file, ".BTF.ext"), file.endianness());
    match Btf::parse(call.rt.alloc(), data_of(file, ".BTF"), order) {
        Ok(types) => ext_with(data, order, &types, call),
        Err(error) => say(call.rt, "no types: ", error),
    }
}

/// A call on a file.
fn on_elf(file: &ElfFile<'_>, call: &Call<'_>) -> io::Result<()> {
    match call.name {
        "section" => named_section(file, call),
        "ext" => ext(file, call),
        _ => call.miss(),
    }
}

/// A call on bytes that are no file, or on a name.
fn on_bytes(bytes: &[u8], call: &Call<'_>) -> io::Result<()> {
    call.begin();
    match call.name {
        "slots" => call.tell(copy_instructions(call.rt.alloc(), bytes)),
        "program_section" => call.tell(ProgramSection::from_str(call.rt.alloc(), call.word)),
        _ => call.miss(),
    }
}

/// A call on bytes, on the file that they are, or on a name.
pub fn on_code(bytes: &[u8], call: &Call<'_>) -> io::Result<()> {
    match ElfFile::parse(bytes) {
        Ok(file) => on_elf(&file, call),
        Err(_) => on_bytes(bytes, call),
    }
}

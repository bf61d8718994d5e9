//! Sections, their names and their data; symbols; relocations.

use super::answers::Question::{
    Counts, DataLength, Fields, Kind, Relocations, SecondName, Symbol, Targets,
};
use super::answers::{answers, answers_in_both, section_named};
use super::file::{CODE, Field, file_with};
use ebpf_base::Endianness::{self, Big, Little};
use ebpf_elf::ElfFile;
use std::alloc::Global;
use std::test::Fail;
use test_same::same_bytes;

#[test]
fn reads_a_file_without_sections(rt: HostRuntime) -> Result<(), Fail> {
    let alloc = rt.alloc();
    let changes = [(40, 8, 0), (60, 2, 0)];
    answers(alloc, Big, &changes, Counts, "Big 0 0 0")?;
    answers(alloc, Big, &changes, Fields(""), "no section")
}

/// Fails where the data of the section of the program isn't the first 16 bytes of the code.
fn has_the_data(alloc: Global, order: Endianness, changes: &[Field]) -> Result<(), Fail> {
    let bytes = file_with(alloc, order, changes)?;
    same_bytes(
        data_of(&bytes, "kprobe/p"),
        CODE.as_slice().get(..16).unwrap_or(&[]),
    )
}

/// The data of a section of the file of these bytes; none where there is no such section.
fn data_of<'a>(bytes: &'a [u8], name: &str) -> &'a [u8] {
    let Ok(file) = ElfFile::parse(bytes) else {
        return &[];
    };
    match section_named(&file, name) {
        Some(section) => section.data().unwrap_or(&[]),
        None => &[],
    }
}

#[test]
fn reads_the_sections(rt: HostRuntime) -> Result<(), Fail> {
    let alloc = rt.alloc();
    let changes = [(312, 8, 0x1000)];
    answers(alloc, Little, &changes, Counts, "Little 5 2 1")?;
    answers(alloc, Big, &changes, Counts, "Big 5 2 1")?;
    answers_in_both(alloc, &changes, Fields("kprobe/p"), "1 1 6 4096 16")?;
    has_the_data(alloc, Little, &changes)?;
    has_the_data(alloc, Big, &changes)
}

#[test]
fn finds_the_first_of_a_name(rt: HostRuntime) -> Result<(), Fail> {
    let question = Fields(".text");
    answers(rt.alloc(), Little, &[(296, 4, 14)], question, "1 1 6 0 16")
}

/// Changes that make the name of `.text` unreadable: past the table, no zero byte after it, no UTF-8.
const UNREADABLE: [[Field; 2]; 3] = [
    [(360, 4, 49), (0, 1, 0x7f)],
    [(360, 4, 36), (520, 8, 48)],
    [(191, 1, 0xff), (0, 1, 0x7f)],
];

#[test]
fn passes_over_unreadable_names(rt: HostRuntime) -> Result<(), Fail> {
    let alloc = rt.alloc();
    for changes in UNREADABLE.iter() {
        let want = "Err(BadStringTable)";
        answers(alloc, Little, changes, SecondName, want)?;
        answers(alloc, Little, changes, Fields(".text"), "no section")?;
    }
    Ok(())
}

#[test]
fn reads_names_without_a_table(rt: HostRuntime) -> Result<(), Fail> {
    let alloc = rt.alloc();
    let changes = [(62, 2, 0), (360, 4, 0), (136, 4, 0)];
    answers(alloc, Little, &changes, Fields(""), "2 1 6 0 8")?;
    let want = "2 Ok(\"\") Some(2) 0 8";
    answers(alloc, Little, &changes, Symbol, want)
}

/// Changes of `.text`, and the length of its data where it has any.
const DATA: [([Field; 2], &str); 5] = [
    ([(364, 4, 8), (384, 8, 0xffff_ffff_ffff_ffff)], "Ok(0)"),
    ([(384, 8, 608), (392, 8, 8)], "Ok(8)"),
    ([(384, 8, 609), (392, 8, 8)], "Err(BadSectionRange)"),
    (
        [(384, 8, 8), (392, 8, 0xffff_ffff_ffff_ffff)],
        "Err(BadSectionRange)",
    ),
    ([(384, 8, 617), (392, 8, 0)], "Ok(0)"),
];

#[test]
fn reads_data(rt: HostRuntime) -> Result<(), Fail> {
    let alloc = rt.alloc();
    for (changes, want) in DATA.iter() {
        answers(alloc, Little, changes, DataLength(".text"), want)?;
    }
    Ok(())
}

#[test]
fn reads_the_symbols(rt: HostRuntime) -> Result<(), Fail> {
    let want = "2 Ok(\"f\") Some(2) 24 8";
    answers_in_both(rt.alloc(), &[(144, 8, 24)], Symbol, want)
}

/// The info of a symbol, its kind, whether it is a definition, and whether it is weak.
const KINDS: [(u64, &str); 9] = [
    (0x10, "Unknown true false"),
    (0x21, "Data true true"),
    (0x02, "Text true false"),
    (0x13, "Section false false"),
    (0x04, "File false false"),
    (0x15, "Data false false"),
    (0x26, "Tls false true"),
    (0x1a, "Text false false"),
    (0x17, "Unknown false false"),
];

#[test]
fn reads_the_kinds_of_symbols(rt: HostRuntime) -> Result<(), Fail> {
    let alloc = rt.alloc();
    for (info, want) in KINDS.iter() {
        answers(alloc, Little, &[(140, 1, *info)], Kind, want)?;
    }
    Ok(())
}

/// A change of `f` and its info, its fields with the section that it is in, and its kind and whether it is a definition.
const SYMBOLS: [(Field, u64, &str, &str); 5] = [
    (
        (142, 2, 0),
        0x12,
        "2 Ok(\"f\") None 0 8",
        "Text false false",
    ),
    (
        (142, 2, 0xfeff),
        0x12,
        "2 Ok(\"f\") Some(65279) 0 8",
        "Text true false",
    ),
    (
        (142, 2, 0xff00),
        0x12,
        "2 Ok(\"f\") None 0 8",
        "Text true false",
    ),
    (
        (142, 2, 0xfff1),
        0x10,
        "2 Ok(\"f\") None 0 8",
        "Unknown true false",
    ),
    (
        (152, 8, 0),
        0x10,
        "2 Ok(\"f\") Some(2) 0 0",
        "Unknown false false",
    ),
];

#[test]
fn reads_the_sections_of_symbols(rt: HostRuntime) -> Result<(), Fail> {
    let alloc = rt.alloc();
    for (change, info, fields, kind) in SYMBOLS.iter() {
        let changes = [*change, (140, 1, *info)];
        answers(alloc, Big, &changes, Symbol, fields)?;
        answers(alloc, Big, &changes, Kind, kind)?;
    }
    Ok(())
}

/// The kind and the size of a section with relocations, the info of its entry, and the entry, with the size of what is
/// patched.
const RELOCATIONS: [(u64, u64, u64, &str); 4] = [
    (9, 16, 0x2_0000_000a, "0 32 2;"),
    (9, 16, 0x2_0000_0001, "0 64 2;"),
    (9, 16, 0x2_0000_0002, "0 0 2;"),
    (4, 24, 0x2_0000_0001, "0 64 2;"),
];

#[test]
fn reads_relocations(rt: HostRuntime) -> Result<(), Fail> {
    let alloc = rt.alloc();
    for (kind, size, info, want) in RELOCATIONS.iter() {
        let changes = [(556, 4, *kind), (584, 8, *size), (168, 8, *info)];
        answers_in_both(alloc, &changes, Relocations("kprobe/p"), want)?;
    }
    Ok(())
}

/// `.text` turned into a second section of relocations for `kprobe/p`.
const SECOND_TABLE: [Field; 6] = [
    (364, 4, 9),
    (384, 8, 160),
    (392, 8, 16),
    (400, 4, 3),
    (404, 4, 1),
    (160, 8, 8),
];

#[test]
fn lists_sections_of_relocations(rt: HostRuntime) -> Result<(), Fail> {
    let alloc = rt.alloc();
    for (question, want) in [
        (Targets, "1 1 "),
        (Relocations("kprobe/p"), "8 32 2;8 32 2;"),
        (Relocations(".symtab"), ""),
    ] {
        answers(alloc, Big, &SECOND_TABLE, question, want)?;
    }
    Ok(())
}

//! Why bytes are no file.

use super::file::{Field, file_with};
use ebpf_base::Endianness::{self, Big, Little};
use ebpf_elf::ElfReadError::{
    BadByteOrder, BadMagic, BadRelocationTable, BadSectionTable, BadStringTable, BadSymbolTable,
    ExtendedNumbering, NotElf64, TooShort,
};
use ebpf_elf::{ElfFile, ElfReadError};
use std::alloc::Global;
use std::test::Fail;
use test_same::same_number;

/// Why bytes are no file.
fn error_of(bytes: &[u8]) -> Option<ElfReadError> {
    ElfFile::parse(bytes).err()
}

/// Fails where bytes aren't refused with this error; where there is none, if they aren't read.
fn is_refused(bytes: &[u8], want: Option<ElfReadError>) -> Result<(), Fail> {
    let got = error_of(bytes);
    if got == want {
        return Ok(());
    }
    Err(Fail::new(format_args!("{got:?} is not {want:?}")))
}

/// The same of the file with some fields changed, in one byte order.
fn ends_in(
    alloc: Global,
    order: Endianness,
    changes: &[Field],
    want: Option<ElfReadError>,
) -> Result<(), Fail> {
    let bytes = file_with(alloc, order, changes)?;
    is_refused(&bytes, want)
}

/// In both byte orders.
fn ends(alloc: Global, changes: &[Field], want: Option<ElfReadError>) -> Result<(), Fail> {
    ends_in(alloc, Little, changes, want)?;
    ends_in(alloc, Big, changes, want)
}

/// Each fault of a file alone.
const FAULTS: [(Field, ElfReadError); 27] = [
    ((0, 1, 0x7e), BadMagic),
    ((3, 1, 0x47), BadMagic),
    ((4, 1, 1), NotElf64),
    ((5, 1, 0), BadByteOrder),
    ((5, 1, 3), BadByteOrder),
    ((60, 2, 0), ExtendedNumbering),
    ((62, 2, 0xffff), ExtendedNumbering),
    ((58, 2, 40), BadSectionTable),
    ((60, 2, 7), BadSectionTable),
    ((40, 8, 233), BadSectionTable),
    ((40, 8, 0xffff_ffff_ffff_ffff), BadSectionTable),
    ((62, 2, 6), BadStringTable),
    ((62, 2, 1), BadStringTable),
    ((512, 8, 568), BadStringTable),
    ((520, 8, 0xffff_ffff_ffff_ffff), BadStringTable),
    ((456, 8, 71), BadSymbolTable),
    ((448, 8, 545), BadSymbolTable),
    ((464, 4, 9), BadStringTable),
    ((464, 4, 1), BadStringTable),
    ((118, 2, 0xffff), ExtendedNumbering),
    ((142, 2, 0xffff), ExtendedNumbering),
    ((596, 4, 6), BadRelocationTable),
    ((584, 8, 17), BadRelocationTable),
    ((576, 8, 601), BadRelocationTable),
    ((556, 4, 4), BadRelocationTable),
    ((584, 8, 0xffff_ffff_ffff_fff0), BadRelocationTable),
    ((596, 4, 0xffff_ffff), BadRelocationTable),
];

#[test]
fn refuses_each_fault(rt: HostRuntime) -> Result<(), Fail> {
    let alloc = rt.alloc();
    for (change, error) in FAULTS.iter() {
        ends(alloc, &[*change], Some(*error))?;
    }
    Ok(())
}

/// Two neighbours in the order of the faults, and the error of the earlier.
const PAIRS: [(Field, Field, ElfReadError); 10] = [
    ((0, 1, 0), (4, 1, 1), BadMagic),
    ((4, 1, 1), (5, 1, 3), NotElf64),
    ((5, 1, 3), (60, 2, 0), BadByteOrder),
    ((62, 2, 0xffff), (58, 2, 40), ExtendedNumbering),
    ((58, 2, 40), (62, 2, 6), BadSectionTable),
    ((62, 2, 1), (456, 8, 71), BadStringTable),
    ((456, 8, 71), (464, 4, 9), BadSymbolTable),
    ((464, 4, 9), (118, 2, 0xffff), BadStringTable),
    ((142, 2, 0xffff), (596, 4, 6), ExtendedNumbering),
    ((448, 8, 600), (584, 8, 17), BadSymbolTable),
];

#[test]
fn refuses_the_earlier_fault(rt: HostRuntime) -> Result<(), Fail> {
    let alloc = rt.alloc();
    for (first, second, error) in PAIRS.iter() {
        ends(alloc, &[*first, *second], Some(*error))?;
    }
    Ok(())
}

/// Fails where one of these lengths isn't refused with this error.
fn are_refused(bytes: &[u8], from: usize, to: usize, want: ElfReadError) -> Result<(), Fail> {
    for length in from..to {
        let part = bytes.get(..length).unwrap_or(bytes);
        is_refused(part, Some(want))?;
    }
    Ok(())
}

#[test]
fn refuses_each_prefix(rt: HostRuntime) -> Result<(), Fail> {
    let bytes = file_with(rt.alloc(), Little, &[])?;
    same_number(bytes.len() as u64, 616)?;
    are_refused(&bytes, 0, 64, TooShort)?;
    are_refused(&bytes, 64, 616, BadSectionTable)?;
    is_refused(&bytes, None)
}

/// Changes that are no faults.
const SOUND: [Field; 9] = [
    (6, 1, 9),
    (16, 2, 3),
    (18, 2, 0),
    (94, 2, 0xffff),
    (62, 2, 0),
    (320, 8, 616),
    (592, 4, 2),
    (232, 4, 2),
    (360, 4, 1000),
];

#[test]
fn passes_over_what_is_not_read(rt: HostRuntime) -> Result<(), Fail> {
    let alloc = rt.alloc();
    for change in SOUND.iter() {
        ends(alloc, &[*change], None)?;
    }
    let without_target = [(596, 4, 0), (584, 8, 17)];
    ends_in(alloc, Little, &without_target, None)
}

//! Why a file can't be read.

use crate::lines::{Lines, Sample};
use ebpf_elf::ElfReadError;
use cli_common::variant_name;

impl Sample for ElfReadError {
    const TYPE: &'static str = "elf::ElfReadError";

    fn variant(&self) -> &'static str {
        variant_name!(
            self,
            ElfReadError: TooShort BadMagic NotElf64 BadByteOrder BadSectionTable BadSectionRange BadStringTable
                BadSymbolTable BadRelocationTable ExtendedNumbering
        )
    }
}

/// Adds each error of reading a file.
pub fn show_all(lines: &mut Lines) {
    lines.show(ElfReadError::TooShort);
    lines.show(ElfReadError::BadMagic);
    lines.show(ElfReadError::NotElf64);
    lines.show(ElfReadError::BadByteOrder);
    lines.show(ElfReadError::BadSectionTable);
    lines.show(ElfReadError::BadSectionRange);
    lines.show(ElfReadError::BadStringTable);
    lines.show(ElfReadError::BadSymbolTable);
    lines.show(ElfReadError::BadRelocationTable);
    lines.show(ElfReadError::ExtendedNumbering);
}

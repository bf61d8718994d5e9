//! Why an object can't be parsed or changed.

use crate::lines::{Lines, Sample};
use ebpf_btf::BtfError;
use ebpf_elf::ElfReadError;
use ebpf_object::obj::VariableError;
use ebpf_parts::ParseError;
use ebpf_parts::maps::PinningError;
use cli_common::variant_name;
use cli_common::variants::variant_of_parsing;

impl Sample for ParseError {
    const TYPE: &'static str = "obj::ParseError";

    fn variant(&self) -> &'static str {
        variant_of_parsing(self)
    }
}

impl Sample for VariableError {
    const TYPE: &'static str = "obj::VariableError";

    fn variant(&self) -> &'static str {
        variant_name!(self, VariableError: NotAVariable WrongSize OutOfMemory)
    }
}

impl Sample for PinningError {
    const TYPE: &'static str = "maps::PinningError";

    fn variant(&self) -> &'static str {
        match self {
            PinningError::Unsupported { .. } => "Unsupported",
        }
    }
}

/// Adds the errors on the file, the license and the version.
fn show_license_and_version(lines: &mut Lines) {
    lines.show(ParseError::ElfError(ElfReadError::BadMagic));
    lines.show(ParseError::BtfError(BtfError::InvalidInfo));
    let license = lines.bytes(b"GPL");
    lines.show(ParseError::MissingLicenseNullTerminator { bytes: license });
    let license = lines.bytes(b"GPL");
    lines.show(ParseError::InvalidLicense { bytes: license });
    let version = lines.bytes(b"GPL");
    lines.show(ParseError::InvalidKernelVersion { bytes: version });
    lines.show(ParseError::SectionError {
        index: 3,
        error: ElfReadError::BadSectionRange,
    });
}

/// Adds the errors on code.
fn show_code(lines: &mut Lines) {
    lines.show(ParseError::UnsupportedRelocationTarget);
    let section = lines.text("xdpp");
    lines.show(ParseError::InvalidProgramSection { section });
    lines.show(ParseError::InvalidProgramCode);
    lines.show(ParseError::SymbolTableConflict {
        section_index: 2,
        address: 0x40,
    });
    lines.show(ParseError::UnknownSymbol {
        section_index: 2,
        address: 0x40,
    });
    let name = Some(lines.text("f"));
    lines.show(ParseError::InvalidSymbol { index: 9, name });
}

/// Adds the errors on maps and variables.
fn show_maps(lines: &mut Lines) {
    let name = lines.text("totals");
    lines.show(ParseError::InvalidMapDefinition { name });
    let name = lines.text("limit");
    lines.show(ParseError::InvalidGlobalData {
        name,
        sym_size: 4,
        data_size: 8,
    });
    let name = lines.text("limit");
    lines.show(ParseError::SymbolNotFound { name });
    lines.show(ParseError::MapNotFound { index: 6 });
    lines.show(ParseError::MapSymbolNameNotFound { i: 12 });
    let section_name = lines.text("maps");
    lines.show(ParseError::NoSymbolsForSection { section_name });
    lines.show(ParseError::NoBTF);
    lines.show(ParseError::OutOfMemory);
    lines.show(ParseError::BigEndianCode);
    lines.show(ParseError::TooLarge {
        most_bytes: 1048576,
    });
    lines.show(ParseError::OtherMachine { machine: 62 });
}

/// Adds each error of parsing and of changing variables.
pub fn show_all(lines: &mut Lines) {
    show_license_and_version(lines);
    show_code(lines);
    show_maps(lines);
    lines.show(VariableError::NotAVariable);
    lines.show(VariableError::WrongSize { size: 4, given: 8 });
    lines.show(VariableError::OutOfMemory);
    lines.show(PinningError::Unsupported { pinning_type: 2 });
}

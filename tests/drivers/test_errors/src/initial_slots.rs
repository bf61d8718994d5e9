//! Why the initial values of maps can't be told.

use crate::lines::{Lines, Sample};
use ebpf_elf::ElfReadError;
use ebpf_initial_slots::InitialSlotError;
use cli_common::variant_name;

impl Sample for InitialSlotError {
    const TYPE: &'static str = "ebpf_initial_slots::InitialSlotError";

    fn variant(&self) -> &'static str {
        variant_name!(
            self,
            InitialSlotError: ElfError UnknownSymbol OutsideMaps UnsupportedMapType NotInMaps UnsupportedKeySize
                UnknownMap UnknownProgram NotAnEntryPoint NoValues OutsideValues Misaligned OutOfMemory
        )
    }
}

/// Adds the errors on relocations and on kinds of maps.
fn show_maps(lines: &mut Lines) {
    lines.show(InitialSlotError::ElfError(ElfReadError::BadMagic));
    lines.show(InitialSlotError::UnknownSymbol {
        place: 0x30,
        symbol_index: 99,
    });
    lines.show(InitialSlotError::OutsideMaps { place: 0x44 });
    let map = lines.text("totals");
    lines.show(InitialSlotError::UnsupportedMapType { map, map_type: 2 });
    let map = lines.text("hashed");
    lines.show(InitialSlotError::UnsupportedKeySize { map, key_size: 8 });
}

/// Adds the errors on values of maps of maps and of arrays of programs, and on the member `values`.
fn show_values(lines: &mut Lines) {
    let (map, target) = (lines.text("outer"), lines.text("entry"));
    lines.show(InitialSlotError::NotInMaps { map, target });
    let (map, target) = (lines.text("outer"), lines.text("inner"));
    lines.show(InitialSlotError::UnknownMap { map, target });
    let (map, target) = (lines.text("calls"), lines.text("inner"));
    lines.show(InitialSlotError::UnknownProgram { map, target });
    let (map, target) = (lines.text("calls"), lines.text("entry"));
    lines.show(InitialSlotError::NotAnEntryPoint { map, target });
    let map = lines.text("outer");
    lines.show(InitialSlotError::NoValues { map });
    let map = lines.text("outer");
    lines.show(InitialSlotError::OutsideValues { map, place: 0x28 });
    let map = lines.text("outer");
    lines.show(InitialSlotError::Misaligned { map, place: 0x34 });
}

/// Adds each error of the initial values of maps.
pub fn show_all(lines: &mut Lines) {
    show_maps(lines);
    show_values(lines);
    lines.show(InitialSlotError::OutOfMemory);
}

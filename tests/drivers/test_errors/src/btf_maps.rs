//! Why the maps of an object can't be completed.

use crate::lines::{Lines, Sample};
use cli_common::variant_name;
use ebpf_btf_maps::BtfMapError;
use ebpf_elf::ElfReadError;

impl Sample for BtfMapError {
    const TYPE: &'static str = "ebpf_btf_maps::BtfMapError";

    fn variant(&self) -> &'static str {
        variant_name!(
            self,
            BtfMapError: ElfError UnknownPinning SecondArena NoArena ArenaTooSmall OutOfMemory
        )
    }
}

/// Adds each error of completing maps.
pub fn show_all(lines: &mut Lines) {
    lines.show(BtfMapError::ElfError(ElfReadError::BadMagic));
    let map = lines.text("counts");
    lines.show(BtfMapError::UnknownPinning { map, number: 2 });
    let map = lines.text("pages");
    lines.show(BtfMapError::SecondArena { map });
    lines.show(BtfMapError::NoArena);
    let map = lines.text("arena");
    lines.show(BtfMapError::ArenaTooSmall {
        map,
        size: 5000,
        pages: 1,
    });
    lines.show(BtfMapError::OutOfMemory);
}

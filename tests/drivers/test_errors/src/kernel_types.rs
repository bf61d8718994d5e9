//! Why an object's types can't be made ready for the kernel.

use crate::lines::{Lines, Sample};
use ebpf_btf::BtfError;
use ebpf_elf::ElfReadError;
use ebpf_btf_load::KernelTypesError;
use cli_common::variant_name;

impl Sample for KernelTypesError {
    const TYPE: &'static str = "ebpf_btf_load::KernelTypesError";

    fn variant(&self) -> &'static str {
        variant_name!(
            self,
            KernelTypesError: ElfError BtfError NoSectionSize NotAVariable NoSymbol UnsupportedExtern TooLarge OutOfMemory
        )
    }
}

/// Adds each error of the types for the kernel.
pub fn show_all(lines: &mut Lines) {
    lines.show(KernelTypesError::ElfError(ElfReadError::BadSectionRange));
    lines.show(KernelTypesError::BtfError(BtfError::InvalidHeader));
    lines.show(KernelTypesError::NoSectionSize { type_id: 70 });
    lines.show(KernelTypesError::NotAVariable { type_id: 7 });
    lines.show(KernelTypesError::NoSymbol { type_id: 7 });
    lines.show(KernelTypesError::UnsupportedExtern { type_id: 7 });
    lines.show(KernelTypesError::TooLarge);
    lines.show(KernelTypesError::OutOfMemory);
}

//! Why descriptors, externs and calls can't be written.

use crate::lines::{Lines, Sample};
use ebpf_model::{EbpfRelocationError, RelocationError};
use cli_common::variants::variant_of_relocation;

impl Sample for RelocationError {
    const TYPE: &'static str = "relocation::RelocationError";

    fn variant(&self) -> &'static str {
        variant_of_relocation(self)
    }
}

impl Sample for EbpfRelocationError {
    const TYPE: &'static str = "relocation::EbpfRelocationError";

    fn variant(&self) -> &'static str {
        self.error.variant()
    }
}

/// Adds the errors of the passes for maps and externs.
fn show_written(lines: &mut Lines) {
    lines.show(RelocationError::UnknownSymbol { index: 12 });
    let symbol_name = Some(lines.text("total"));
    lines.show(RelocationError::SectionNotFound {
        section_index: 5,
        symbol_index: 12,
        symbol_name,
    });
    lines.show(RelocationError::InvalidRelocationOffset {
        offset: 0x1c,
        relocation_number: 2,
    });
    let name = lines.text("bpf_task_acquire");
    lines.show(RelocationError::ExternNotFound { name });
    let name = lines.text("bpf_task_acquire");
    lines.show(RelocationError::UnresolvableSymbol { name });
    lines.show(RelocationError::MapAddressOverflow { offset: 0x18 });
}

/// Adds the errors on where a call leads, and of functions that can't be appended.
fn show_targets(lines: &mut Lines) {
    let caller_name = lines.text("f");
    lines.show(RelocationError::UnknownFunction {
        address: 0x48,
        caller_name,
    });
    lines.show(RelocationError::UnknownProgram {
        section_index: 3,
        address: 0,
    });
    lines.show(RelocationError::UnsupportedTextSymbol { index: 12 });
    let name = lines.text("f");
    lines.show(RelocationError::FunctionInfoMismatch { name });
    let name = lines.text("f");
    lines.show(RelocationError::InvalidLineInfo { name });
    let name = lines.text("f");
    lines.show(RelocationError::ProgramTooLong { name });
    lines.show(RelocationError::OutOfMemory);
}

/// Adds each error of the passes for maps, externs and calls, and what stands before it.
pub fn show_all(lines: &mut Lines) {
    show_written(lines);
    show_targets(lines);
    let function = lines.text("p");
    let error = RelocationError::UnknownSymbol { index: 12 };
    lines.show(EbpfRelocationError { function, error });
    let error = EbpfRelocationError::memory(lines.alloc());
    lines.show(error);
}

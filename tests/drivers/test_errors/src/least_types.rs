//! Why no least types are made.

use crate::lines::{Lines, Sample};
use cli_common::variant_name;
use ebpf_least_types::{KernelIdUse, LeastTypesError};

impl Sample for LeastTypesError {
    const TYPE: &'static str = "ebpf_least_types::LeastTypesError";

    fn variant(&self) -> &'static str {
        variant_name!(self, LeastTypesError: NeedsKernelId OutOfMemory)
    }
}

/// Adds each error of the least types.
pub fn show_all(lines: &mut Lines) {
    lines.show(LeastTypesError::NeedsKernelId {
        object: 1,
        needed: KernelIdUse::Record {
            section_name: 70,
            number: 3,
        },
    });
    lines.show(LeastTypesError::OutOfMemory);
}

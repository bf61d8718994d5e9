//! Why programs can't be left out of an object.

use crate::lines::{Lines, Sample};
use cli_common::variant_name;
use ebpf_chosen_programs::LeaveOutError;

impl Sample for LeaveOutError {
    const TYPE: &'static str = "ebpf_chosen_programs::LeaveOutError";

    fn variant(&self) -> &'static str {
        variant_name!(self, LeaveOutError: UnknownProgram OutOfMemory)
    }
}

/// Adds each error of leaving programs out.
pub fn show_all(lines: &mut Lines) {
    let name = lines.text("entry");
    lines.show(LeaveOutError::UnknownProgram { name });
    lines.show(LeaveOutError::OutOfMemory);
}

//! Why externs can't be resolved.

use crate::lines::{Lines, Sample};
use ebpf_btf::BtfError;
use ebpf_ksyms::KsymsError;
use cli_common::variants::variant_of_resolving;
use std::io::{self, ErrorKind};

impl Sample for KsymsError {
    const TYPE: &'static str = "extern_types::KsymsError";

    fn variant(&self) -> &'static str {
        variant_of_resolving(self)
    }
}

/// Adds the errors on the kernel's types.
fn show_typed(lines: &mut Lines) {
    lines.show(KsymsError::TypedKsymRequiresKernelBtf);
    let name = lines.text("bpf_task_acquire");
    lines.show(KsymsError::FunctionNotFound { name });
    let name = lines.text("bpf_prog_active");
    lines.show(KsymsError::VariableNotFound { name });
    let name = lines.text("bpf_task_acquire");
    lines.show(KsymsError::IncompatibleFunctionSignature { name });
    let name = lines.text("bpf_prog_active");
    lines.show(KsymsError::IncompatibleVariableType { name });
    let name = lines.text("bpf_prog_active");
    lines.show(KsymsError::InvalidExternType { name });
    let unknown = BtfError::UnknownBtfType { type_id: 70 };
    lines.show(KsymsError::BtfError(unknown));
}

/// Adds the errors on the lines of the kernel's symbols.
fn show_lines(lines: &mut Lines) {
    let name = lines.text("init_task");
    lines.show(KsymsError::AmbiguousResolution {
        name,
        first_addr: 0x1000,
        second_addr: 0x2000,
    });
    let denied = io::Error::from(ErrorKind::PermissionDenied);
    lines.show(KsymsError::KallsymsAccessError(denied));
    let words = lines.text("invalid address: not_hex");
    lines.show(KsymsError::KallsymsParseError(words));
    lines.show(KsymsError::OutOfMemory);
}

/// Adds each error of resolving externs.
pub fn show_all(lines: &mut Lines) {
    show_typed(lines);
    show_lines(lines);
}

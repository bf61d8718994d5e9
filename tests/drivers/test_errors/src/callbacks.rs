//! Why the exception callbacks of an object can't be had.

use crate::lines::{Lines, Sample};
use cli_common::variant_name;
use ebpf_elf::ElfReadError;
use ebpf_exceptions::ExceptionError;

impl Sample for ExceptionError {
    const TYPE: &'static str = "ebpf_exceptions::ExceptionError";

    fn variant(&self) -> &'static str {
        variant_name!(
            self,
            ExceptionError: ElfError NotAFunction NotGlobal EmptyCallback UnknownCallback CallbackNotGlobal OutOfMemory
        )
    }
}

/// Adds each error of completing programs.
pub fn show_all(lines: &mut Lines) {
    lines.show(ExceptionError::ElfError(ElfReadError::BadMagic));
    let callback = lines.text("on_throw");
    lines.show(ExceptionError::NotAFunction {
        type_id: 7,
        callback,
    });
    let function = lines.text("helper");
    lines.show(ExceptionError::NotGlobal { function });
    let program = lines.text("filter");
    lines.show(ExceptionError::EmptyCallback { program });
    let program = lines.text("filter");
    let callback = lines.text("on_throw");
    lines.show(ExceptionError::UnknownCallback { program, callback });
    let program = lines.text("filter");
    let callback = lines.text("on_throw");
    lines.show(ExceptionError::CallbackNotGlobal { program, callback });
    lines.show(ExceptionError::OutOfMemory);
}

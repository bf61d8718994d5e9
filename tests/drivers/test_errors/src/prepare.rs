//! Why a file can't be prepared.

use crate::lines::{Lines, Sample};
use ebpf_core::RelocationError as CoreError;
use ebpf_core_relo::BtfRelocationError;
use ebpf_ksyms::KsymsError;
use ebpf_model::{EbpfRelocationError, RelocationError};
use ebpf_object::obj::ParseError;
use ebpf_object::prepare::PrepareError;
use cli_common::variant_name;

impl Sample for PrepareError {
    const TYPE: &'static str = "prepare::PrepareError";

    fn variant(&self) -> &'static str {
        variant_name!(
            self,
            PrepareError: Parse Types Maps Ksyms Externs Calls OutOfMemory MissingDescriptor UnknownMap UnwrittenExtern
        )
    }
}

/// An error of the function `p`.
pub fn in_p(lines: &mut Lines, error: RelocationError) -> EbpfRelocationError {
    let function = lines.text("p");
    EbpfRelocationError { function, error }
}

/// A map of a symbol in a section without a descriptor.
pub fn without_map(lines: &mut Lines, section_index: usize) -> PrepareError {
    let symbol_name = Some(lines.text("total"));
    let error = RelocationError::SectionNotFound {
        section_index,
        symbol_index: 12,
        symbol_name,
    };
    PrepareError::Maps(in_p(lines, error))
}

/// Adds the errors of the stages up to the externs' resolution.
fn show_first(lines: &mut Lines) {
    lines.show(PrepareError::Parse(ParseError::InvalidProgramCode));
    let section = lines.text("kprobe/p");
    let error = CoreError::FunctionNotFound;
    lines.show(PrepareError::Types(BtfRelocationError { section, error }));
    let error = without_map(lines, 5);
    lines.show(error);
    let error = KsymsError::TypedKsymRequiresKernelBtf;
    lines.show(PrepareError::Ksyms(error));
}

/// Adds each error of preparing a file.
pub fn show_all(lines: &mut Lines) {
    show_first(lines);
    let name = lines.text("bpf_task_acquire");
    let error = in_p(lines, RelocationError::UnresolvableSymbol { name });
    lines.show(PrepareError::Externs(error));
    let error = in_p(lines, RelocationError::UnsupportedTextSymbol { index: 12 });
    lines.show(PrepareError::Calls(error));
    lines.show(PrepareError::OutOfMemory);
    let map = lines.text("counts");
    lines.show(PrepareError::MissingDescriptor { map });
    let name = lines.text("count");
    lines.show(PrepareError::UnknownMap { name });
    let name = lines.text("bpf_task_acquire");
    lines.show(PrepareError::UnwrittenExtern { name });
}

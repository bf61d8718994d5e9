//! Why CO-RE relocations can't be applied.

use crate::lines::{Lines, Sample};
use ebpf_base::{Items, Text};
use ebpf_btf::BtfError;
use ebpf_core::RelocationError;
use ebpf_core_relo::BtfRelocationError;
use ebpf_btf_ext::RelocationKind;
use cli_common::variants::variant_of_type_relocation;
use std::alloc::{AllocError, Global};

impl Sample for RelocationError {
    const TYPE: &'static str = "core_relo::RelocationError";

    fn variant(&self) -> &'static str {
        variant_of_type_relocation(self)
    }
}

impl Sample for BtfRelocationError {
    const TYPE: &'static str = "core_relo::BtfRelocationError";

    fn variant(&self) -> &'static str {
        self.error.variant()
    }
}

/// Adds two names.
fn put_names(alloc: Global, names: &mut Items<Text>) -> Result<(), AllocError> {
    for name in ["s___old", "s___new"] {
        names.push(Text::from_str(alloc, name)?)?;
    }
    Ok(())
}

/// Two names.
fn names(lines: &mut Lines) -> Items<Text> {
    let mut names = Items::new(lines.alloc());
    let step = put_names(lines.alloc(), &mut names);
    lines.has_memory(step);
    names
}

/// Adds the errors on where a relocation is and what it names.
fn show_places(lines: &mut Lines) {
    lines.show(RelocationError::SectionNotFound);
    lines.show(RelocationError::FunctionNotFound);
    let access_str = lines.text("0:x");
    lines.show(RelocationError::InvalidAccessString { access_str });
    lines.show(RelocationError::InvalidInstructionIndex {
        index: 2,
        num_instructions: 2,
        relocation_number: 0,
    });
    let type_name = lines.text("s");
    let candidates = names(lines);
    lines.show(RelocationError::ConflictingCandidates {
        type_name,
        candidates,
    });
    let type_name = lines.text("s");
    lines.show(RelocationError::MaximumNestingLevelReached { type_name });
}

/// Adds the errors of an access string whose part is past what its type has, and of a question that can't be asked.
fn show_questions(lines: &mut Lines) {
    let access_path = lines.text("s[0]");
    let spec = lines.text("0:3");
    let error = lines.text("members count from 0");
    lines.show(RelocationError::InvalidAccessIndex {
        access_path,
        spec,
        index: 3,
        len: 3,
        error,
    });
    let relocation_kind = lines.text("the sign of a field");
    let type_kind = lines.text("an element");
    let error = lines.text("s[0].values[1]");
    lines.show(RelocationError::InvalidRelocationKindForType {
        relocation_number: 0,
        relocation_kind,
        type_kind,
        error,
    });
}

/// Adds the errors on instructions and types.
fn show_instructions(lines: &mut Lines) {
    let error = lines.text("code 0x95 can't carry 8");
    lines.show(RelocationError::InvalidInstruction {
        relocation_number: 0,
        index: 4,
        error,
    });
    lines.show(RelocationError::MissingTargetDefinition {
        kind: RelocationKind::TypeSize,
        type_id: 7,
        ins_index: 4,
    });
    let unknown = BtfError::UnknownBtfType { type_id: 70 };
    lines.show(RelocationError::BtfError(unknown));
    lines.show(RelocationError::OutOfMemory);
}

/// Adds each error of CO-RE relocations, and what stands before it.
pub fn show_all(lines: &mut Lines) {
    show_places(lines);
    show_questions(lines);
    show_instructions(lines);
    let section = lines.text("kprobe/p");
    let error = RelocationError::FunctionNotFound;
    lines.show(BtfRelocationError { section, error });
    let error = BtfRelocationError::memory(lines.alloc());
    lines.show(error);
}

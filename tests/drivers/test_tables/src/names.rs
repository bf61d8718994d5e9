//! Names and numbers, and what they say.

use ebpf_parts::ProgramSection;
use ebpf_parts::maps::{PinningType, bpf_map_type};
use ebpf_parts::programs::{CgroupSockAttachType, ProgramKind, bpf_prog_type, program_kind};
use std::alloc::{AllocError, Global};
use test_cases::{Action, no_action, shown};

/// The kind of program that a section's name says, or its refusal.
pub fn kind(alloc: Global, action: &Action<'_>) -> Result<String, AllocError> {
    match ProgramSection::from_str(alloc, action.word(0)) {
        Ok(section) => shown(alloc, section),
        Err(error) => format!(in alloc; "{error}"),
    }
}

/// How programs of a kind are loaded.
fn loaded_as(alloc: Global, kind: ProgramKind) -> Result<String, AllocError> {
    let (number, attach_type) = (kind.program_type.number(), kind.attach_type);
    let mut text = format!(in alloc; "type {number} attach {attach_type:?}")?;
    let words = [
        (kind.is_sleepable, " sleepable"),
        (kind.has_frags, " frags"),
        (kind.wants_target_type, " target"),
        (kind.is_optional, " optional"),
    ];
    for (is_said, word) in &words {
        text.push_str(if *is_said { word } else { "" })?;
    }
    Ok(text)
}

/// How the programs of a section with a name are loaded.
pub fn loaded(alloc: Global, action: &Action<'_>) -> Result<String, AllocError> {
    match program_kind(action.word(0)) {
        Some(kind) => loaded_as(alloc, kind),
        None => String::from_str(alloc, "none"),
    }
}

/// The kind of map or program or the pinning that a number says.
pub fn of_number(alloc: Global, action: &Action<'_>) -> Result<String, AllocError> {
    let Some(number) = action.small_number(0) else {
        return no_action(alloc);
    };
    match action.name {
        "map_type" => shown(alloc, bpf_map_type::try_from(number)),
        "program_type" => shown(alloc, bpf_prog_type::try_from(number)),
        "pinning" => shown(alloc, PinningType::try_from(number)),
        _ => no_action(alloc),
    }
}

/// What a program of a control group's sockets is attached to where nothing is said.
pub fn default_attach_type(alloc: Global) -> Result<String, AllocError> {
    shown(alloc, CgroupSockAttachType::default())
}

//! What `.BTF.ext` says: of functions and lines, and its relocations.

use crate::types::ordered;
use ebpf_btf::{Btf, Endianness};
use ebpf_btf_ext::{BtfExt, RelocationKind};
use std::alloc::{AllocError, Global};
use test_cases::{Action, Files, beside_copy, front, no_action, shown, tally_each};

/// The relocations, and how many bytes a record has of a function and of a line.
fn relocations(alloc: Global, ext: &BtfExt) -> Result<String, AllocError> {
    let relocations = ext.relocations();
    let (func_size, line_size) = (ext.func_info_rec_size(), ext.line_info_rec_size());
    format!(in alloc; "{relocations:?} {func_size} {line_size}")
}

/// What an action asks for.
fn answer(alloc: Global, ext: &BtfExt, action: &Action<'_>) -> Result<String, AllocError> {
    match action.name {
        "funcs" => shown(alloc, ext.func_info.get(action.word(0))?),
        "lines" => shown(alloc, ext.line_info.get(action.word(0))?),
        "relocations" => relocations(alloc, ext),
        _ => String::from_str(alloc, "read"),
    }
}

/// The answer of a copy.
fn answer_of_copy(alloc: Global, ext: &BtfExt, action: &Action<'_>) -> Result<String, AllocError> {
    let copy = ext.clone()?;
    answer(alloc, &copy, action)
}

/// An answer, and that of a copy where it is another one.
fn both_answers(alloc: Global, ext: &BtfExt, action: &Action<'_>) -> Result<String, AllocError> {
    let answered = answer(alloc, ext, action)?;
    beside_copy(answered, answer_of_copy(alloc, ext, action)?)
}

/// What an action gives of the file `ext`.
pub fn on_ext(
    alloc: Global,
    files: &Files,
    btf: &Btf,
    action: &Action<'_>,
) -> Result<String, AllocError> {
    let (bytes, order) = ordered(files, "big ext", "ext");
    match BtfExt::parse(alloc, bytes, order, btf) {
        Ok(ext) => both_answers(alloc, &ext, action),
        Err(error) => shown(alloc, error),
    }
}

/// Whether bytes can be read.
fn readable(alloc: Global, bytes: &[u8], btf: &Btf) -> Result<String, AllocError> {
    match BtfExt::parse(alloc, bytes, Endianness::Little, btf) {
        Ok(_ext) => String::from_str(alloc, "read"),
        Err(error) => shown(alloc, error),
    }
}

/// What the first bytes give, for each length from one number up to another.
pub fn ext_prefixes(
    alloc: Global,
    files: &Files,
    btf: &Btf,
    action: &Action<'_>,
) -> Result<String, AllocError> {
    let bytes = files.get("ext");
    tally_each(alloc, action.range(), |length| {
        readable(alloc, front(bytes, length), btf)
    })
}

/// The kind of a relocation's number, which is the number of the kind again.
pub fn relocation_kind(alloc: Global, action: &Action<'_>) -> Result<String, AllocError> {
    let Some(number) = action.small_number(0) else {
        return no_action(alloc);
    };
    let found = RelocationKind::try_from(number);
    match found {
        Ok(kind) => {
            let back = kind.number();
            format!(in alloc; "{kind:?} {back}")
        }
        Err(error) => shown(alloc, error),
    }
}

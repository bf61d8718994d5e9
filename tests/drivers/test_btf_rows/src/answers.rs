//! What types answer.

use crate::candidates::kind_of;
use ebpf_btf::{Btf, BtfError, BtfMember, BtfType};
use std::alloc::{AllocError, Global};
use std::borrow::CowStr;
use test_cases::{Action, beside_copy, no_action, shown, value_or_error};

/// A text, or why it can't be read.
pub fn text_of(
    alloc: Global,
    found: Result<CowStr<'_, Global>, BtfError>,
) -> Result<String, AllocError> {
    match found {
        Ok(text) => String::from_str(alloc, text.as_str()),
        Err(error) => shown(alloc, error),
    }
}

fn error_name(alloc: Global, btf: &Btf, ty: &BtfType<'_>) -> Result<String, AllocError> {
    match btf.err_type_name(ty) {
        Some(text) => String::from_str(alloc, text.as_str()),
        None => String::from_str(alloc, "None"),
    }
}

/// The number of members, and where one with the offset word 0x03000005 would stand.
fn members(alloc: Global, ty: &BtfType<'_>) -> Result<String, AllocError> {
    let member = BtfMember {
        name_offset: 0,
        btf_type: 1,
        offset: 0x0300_0005,
    };
    let place = ty.member_bit_offset(&member);
    let bits = ty.member_bit_field_size(&member);
    match ty.members() {
        Some(members) => {
            let count = members.len();
            format!(in alloc; "members {count}, one at {place} of {bits}")
        }
        None => format!(in alloc; "no members, one at {place} of {bits}"),
    }
}

/// The kind, the offset of the name, the size, the id that is held, and what is said of members.
fn accessors(alloc: Global, ty: &BtfType<'_>) -> Result<String, AllocError> {
    let kind = ty.kind();
    let name = ty.name_offset();
    let size = ty.size();
    let held = ty.btf_type();
    let members = members(alloc, ty)?;
    format!(in alloc; "{kind:?} named at {name}, size {size:?}, of {held:?}, {members}")
}

/// An answer about the type with an id.
fn of_type(alloc: Global, btf: &Btf, question: &str, id: u32) -> Result<String, AllocError> {
    let ty = match btf.type_by_id(id) {
        Ok(ty) => ty,
        Err(error) => return shown(alloc, error),
    };
    match question {
        "accessors" => accessors(alloc, &ty),
        "name" => text_of(alloc, btf.type_name(&ty)),
        "error_name" => error_name(alloc, btf, &ty),
        _ => shown(alloc, ty),
    }
}

/// The id of a kind and a name.
fn id(alloc: Global, btf: &Btf, action: &Action<'_>) -> Result<String, AllocError> {
    match kind_of(action.word(0)) {
        Some(kind) => value_or_error(alloc, btf.id_by_type_name_kind(action.word(1), kind)),
        None => no_action(alloc),
    }
}

/// The answer to a question about a number.
fn of_number(alloc: Global, btf: &Btf, question: &str, number: u32) -> Result<String, AllocError> {
    match question {
        "text" => text_of(alloc, btf.string_at(number)),
        "resolved" => value_or_error(alloc, btf.resolve_type(number)),
        "size" => value_or_error(alloc, btf.type_size(number)),
        "type" | "accessors" | "name" | "error_name" => of_type(alloc, btf, question, number),
        _ => no_action(alloc),
    }
}

/// The answer to a question.
fn answer(alloc: Global, btf: &Btf, action: &Action<'_>) -> Result<String, AllocError> {
    match (action.name, action.small_number(0)) {
        ("count", _) => shown(alloc, btf.len()),
        ("id", _) => id(alloc, btf, action),
        (question, Some(number)) => of_number(alloc, btf, question, number),
        _ => no_action(alloc),
    }
}

/// The answer of a copy.
fn answer_of_copy(alloc: Global, btf: &Btf, action: &Action<'_>) -> Result<String, AllocError> {
    let copy = btf.clone()?;
    answer(alloc, &copy, action)
}

/// An answer, and that of a copy where it is another one.
pub fn both_answers(alloc: Global, btf: &Btf, action: &Action<'_>) -> Result<String, AllocError> {
    let answered = answer(alloc, btf, action)?;
    beside_copy(answered, answer_of_copy(alloc, btf, action)?)
}

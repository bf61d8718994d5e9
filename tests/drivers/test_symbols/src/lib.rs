//! Actions on a list of a kernel's addresses, by name, for the rows over all crates. Their words say the externs. The reader of
//! the list can fail. Nothing is promised of it but that it is safe.
#![tactic(auto)]

mod answers;
mod given;

use crate::answers::TypedExterns;
use crate::given::externs_by;
pub use answers::{Question, found};
use ebpf_base::ByName;
use ebpf_btf::Btf;
use ebpf_ksyms::TextLines;
use ebpf_model::ExternDesc;
use std::alloc::{AllocError, Global};
use std::io::ErrorKind;
use test_cases::{Action, FailingReader, front, no_action, shown, tally_each};

/// What is answered where these bytes are read and then the end or a failure, and whether they were asked for.
fn answer_behind<Q: Question>(
    alloc: Global,
    question: &Q,
    bytes: &[u8],
    failure: Option<ErrorKind>,
) -> Result<String, AllocError> {
    let mut reader = FailingReader::new(bytes, failure);
    let mut text = question.answer(alloc, &mut reader)?;
    let asked = reader.is_asked();
    write!(text, "\nreader asked {asked}")?;
    Ok(text)
}

/// How many times each answer comes where a failure stands behind the first bytes, for each number of them.
fn answers_at_each<Q: Question>(
    alloc: Global,
    question: &Q,
    bytes: &[u8],
) -> Result<String, AllocError> {
    tally_each(alloc, 0..bytes.len().saturating_add(1), |place| {
        answer_behind(alloc, question, front(bytes, place), Some(ErrorKind::Other))
    })
}

/// What an action gives of a question.
pub fn of_question<Q: Question>(
    alloc: Global,
    question: &Q,
    bytes: &[u8],
    action: &str,
) -> Result<String, AllocError> {
    match action {
        "found" => answer_behind(alloc, question, bytes, None),
        "text" => question.answer_text(alloc, bytes),
        "failing" => answer_behind(alloc, question, bytes, Some(ErrorKind::Other)),
        "without_memory" => answer_behind(alloc, question, bytes, Some(ErrorKind::OutOfMemory)),
        "failing_at_each" => answers_at_each(alloc, question, bytes),
        _ => no_action(alloc),
    }
}

/// What an action gives of externs, of an object whose types are void alone.
fn of_externs(
    alloc: Global,
    externs: ByName<ExternDesc>,
    bytes: &[u8],
    action: &str,
) -> Result<String, AllocError> {
    match Btf::new(alloc) {
        Ok(types) => of_question(alloc, &TypedExterns { externs, types }, bytes, action),
        Err(error) => shown(alloc, error),
    }
}

/// The lines of a text, or what stands in their place.
fn lines_of(alloc: Global, bytes: &[u8]) -> Result<String, AllocError> {
    let mut text = String::new(alloc);
    for line in TextLines::new(alloc, bytes) {
        writeln!(text, "{line:?}")?;
    }
    Ok(text)
}

/// What an action of this name gives of the lines in bytes.
pub fn on_lines(
    alloc: Global,
    bytes: &[u8],
    action: &Action<'_>,
    name: &str,
) -> Result<String, AllocError> {
    if name == "lines" {
        return lines_of(alloc, bytes);
    }
    match externs_by(alloc, action.words.as_slice())? {
        Some(externs) => of_externs(alloc, externs, bytes, name),
        None => no_action(alloc),
    }
}

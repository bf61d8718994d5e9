//! Externs that are found in a kernel: its types are the file `kernel`, if there is one, and its addresses the file
//! `kallsyms`.

use crate::passes::{Shown, known_written};
use ebpf_btf::Btf;
use ebpf_object::Object;
use std::alloc::{AllocError, Global};
use std::fmt::Debug;
use test_bare_calls::{Asker, on_types, resolve_externs, resolve_text};
use test_cases::{Action, Files, no_action};
use test_tables::{put_lines, set_externs};

/// An object whose externs are looked up, with the addresses as a reader's or as a text.
#[derive(Drop)]
struct Resolving<'a> {
    alloc: Global,
    object: &'a mut Object,
    kallsyms: &'a [u8],
    as_text: bool,
}

/// Resolves the externs with a kernel's types, where there are some: what that answers.
fn resolve(given: Resolving<'_>, kernel: Option<&Btf>) -> Result<String, AllocError> {
    let as_text = given.as_text;
    let kallsyms = given.kallsyms;
    let shown = Shown(given.alloc);
    if as_text {
        resolve_text(given.object, kernel, kallsyms, &shown)
    } else {
        resolve_externs(given.object, kernel, kallsyms, &shown)
    }
}

impl<'a> Asker<Btf> for Resolving<'a> {
    type Answer = Result<String, AllocError>;

    fn asks(self, types: &mut Btf) -> Result<String, AllocError> {
        resolve(self, Some(types))
    }

    fn hears<E: Debug>(self, _error: &E) -> Result<String, AllocError> {
        resolve(self, None)
    }
}

/// Looks the externs up in the kernel of the files: what that answers.
fn looked_up(
    alloc: Global,
    files: &Files,
    object: &mut Object,
    as_text: bool,
) -> Result<String, AllocError> {
    let order = object.endianness;
    let resolving = Resolving {
        alloc,
        object,
        kallsyms: files.get("kallsyms"),
        as_text,
    };
    on_types(alloc, files.get("kernel"), order, resolving)
}

/// Adds the externs by name, or what writing them gives.
fn put_found(
    alloc: Global,
    text: &mut String,
    object: &mut Object,
    what: &str,
) -> Result<(), AllocError> {
    match what {
        "externs" => put_lines(alloc, text, &object.externs),
        "slots" => {
            let slots = known_written(alloc, object)?;
            text.push_str(slots.as_str())
        }
        _ => text.push_str("no such outcome"),
    }
}

/// What resolving the externs answers, as the action `resolved` by a reader's lines or as `resolved_text` by a text's, and
/// then the externs by name, or what writing them gives. Further words say what is known before.
pub fn resolved(
    alloc: Global,
    files: &Files,
    object: &mut Object,
    action: &Action<'_>,
) -> Result<String, AllocError> {
    let words = action.words.get(1..).unwrap_or(&[]);
    if !set_externs(alloc, &mut object.externs, words)? {
        return no_action(alloc);
    }
    let mut text = looked_up(alloc, files, object, action.name == "resolved_text")?;
    text.push('\n')?;
    put_found(alloc, &mut text, object, action.word(0))?;
    Ok(text)
}

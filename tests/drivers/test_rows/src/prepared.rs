//! Files that are prepared in one call.

use ebpf_btf::{Btf, Endianness};
use ebpf_object::Object;
use ebpf_object::prepare::Steps;
use std::alloc::{AllocError, Global};
use std::fmt::Debug;
use test_bare_calls::{Asker, on_prepared, on_types, on_void_types};
use test_cases::{Action, Files};
use test_symbols::found;
use test_tables::put_slots;

/// The name of a map and its descriptor, as `NAME=DESCRIPTOR`.
fn descriptor(word: &str) -> Option<(&str, i32)> {
    let (name, number) = word.split_once('=')?;
    Some((name, number.parse::<i32>().ok()?))
}

/// The descriptors that words give, in their order.
pub fn descriptors<'a>(
    alloc: Global,
    words: &[&'a str],
) -> Result<Vec<(&'a str, i32)>, AllocError> {
    let mut given = Vec::new(alloc);
    for word in words {
        let Some(named) = descriptor(word) else {
            continue;
        };
        given.push(named)?;
    }
    Ok(given)
}

/// Whether a word is among words.
fn has(words: &[&str], asked: &str) -> bool {
    words.iter().any(|word| *word == asked)
}

/// What words choose: `types`, `maps` with the descriptors, `externs` without a kernel's types or `externs_written` with
/// them, `calls`, and with `complete` that nothing may be missing.
fn steps<'a>(words: &[&str], types: &'a Btf, given: &'a [(&'a str, i32)]) -> Steps<'a> {
    let externs = if has(words, "externs_written") {
        Some(Some(types))
    } else if has(words, "externs") {
        Some(None)
    } else {
        None
    };
    Steps {
        target_btf: has(words, "types").then_some(types),
        map_fds: has(words, "maps").then_some(given),
        externs,
        calls: has(words, "calls"),
        complete: has(words, "complete"),
    }
}

/// The slots of the programs, and how many maps there are.
fn programs(alloc: Global, object: &Object) -> Result<String, AllocError> {
    let mut text = String::new(alloc);
    let maps = object.maps.len();
    writeln!(text, "maps {maps}")?;
    put_slots(alloc, &mut text, &object.programs, &object.functions, false)?;
    Ok(text)
}

/// What is asked of an object that was prepared.
#[derive(Clone, Copy)]
pub enum Wanted {
    /// The slots of the programs, and how many maps there are.
    Programs,
    /// The externs.
    Externs,
    /// Nothing.
    Nothing,
}

/// What is asked of an object that was prepared, or why nothing was.
#[derive(Clone, Copy)]
pub struct Outcome {
    pub alloc: Global,
    pub wanted: Wanted,
}

impl Asker<Object> for Outcome {
    type Answer = Result<String, AllocError>;

    fn asks(self, object: &mut Object) -> Result<String, AllocError> {
        match self.wanted {
            Wanted::Programs => programs(self.alloc, object),
            Wanted::Externs => found(self.alloc, &object.externs),
            Wanted::Nothing => String::from_str(self.alloc, "prepared"),
        }
    }

    fn hears<E: Debug>(self, error: &E) -> Result<String, AllocError> {
        format!(in self.alloc; "{error:?}")
    }
}

/// A file that is to be prepared with types, as words choose.
#[derive(Clone, Copy)]
struct Preparing<'a> {
    alloc: Global,
    files: &'a Files,
    words: &'a [&'a str],
}

/// What preparing a file by these steps gives.
fn prepared_by(given: Preparing<'_>, steps: &Steps<'_>) -> Result<String, AllocError> {
    let outcome = Outcome {
        alloc: given.alloc,
        wanted: Wanted::Programs,
    };
    let (object, kallsyms) = (given.files.get("object"), given.files.get("kallsyms"));
    on_prepared(given.alloc, object, steps, kallsyms, outcome)
}

impl<'a> Asker<Btf> for Preparing<'a> {
    type Answer = Result<String, AllocError>;

    fn asks(self, types: &mut Btf) -> Result<String, AllocError> {
        let given = descriptors(self.alloc, self.words)?;
        prepared_by(self, &steps(self.words, types, &given))
    }

    fn hears<E: Debug>(self, error: &E) -> Result<String, AllocError> {
        format!(in self.alloc; "no types: {error:?}")
    }
}

/// Whether the programs of a file can be linked with the functions that they reach, or the error.
pub fn linked_in_one_call(alloc: Global, bytes: &[u8]) -> Result<String, AllocError> {
    let steps = Steps {
        target_btf: None,
        map_fds: None,
        externs: None,
        calls: true,
        complete: false,
    };
    let none: &[u8] = &[];
    let wanted = Wanted::Nothing;
    on_prepared(alloc, bytes, &steps, none, Outcome { alloc, wanted })
}

/// What preparing a file gives as the words choose; without a file of types there are none but void.
pub fn prepared(alloc: Global, files: &Files, action: &Action<'_>) -> Result<String, AllocError> {
    let (bytes, words) = (files.get("types"), action.words.as_slice());
    let given = Preparing {
        alloc,
        files,
        words,
    };
    if bytes.is_empty() {
        on_void_types(alloc, given)
    } else {
        on_types(alloc, bytes, Endianness::Little, given)
    }
}

//! Objects of files.

use crate::asking::{Asker, ask};
use ebpf_object::Object;
use ebpf_object::obj::{ParseError, ParseMode};
use ebpf_object::prepare::{PrepareError, Steps, SymbolSource, prepare};
use std::alloc::{AllocError, Global};
use std::fmt::Debug;

/// The object of a file.
fn parse(alloc: Global, bytes: &[u8]) -> Result<Object, ParseError> {
    Object::parse(alloc, bytes)
}

/// The object of a file, where it is one; who calls lets go of it by `let_go`.
pub fn parsed(alloc: Global, bytes: &[u8]) -> Option<Object> {
    match parse(alloc, bytes) {
        Ok(object) => Some(object),
        Err(_) => None,
    }
}

/// Lets go of an object.
pub fn let_go(object: Object) {
    drop(object);
}

/// Lets go of a refusal.
pub fn forget(refusal: PrepareError) {
    drop(refusal);
}

/// Lends the object of a file.
pub fn on_file<A: Asker<Object>>(alloc: Global, bytes: &[u8], asker: A) -> A::Answer {
    ask(asker, parse(alloc, bytes))
}

/// Lends the object of a file in a reading.
pub fn on_parsed<A: Asker<Object>>(
    alloc: Global,
    bytes: &[u8],
    mode: ParseMode,
    asker: A,
) -> A::Answer {
    ask(asker, Object::parse_as(alloc, bytes, mode))
}

/// Lends the object of a file after the chosen passes.
pub fn on_prepared<A: Asker<Object>, K: SymbolSource>(
    alloc: Global,
    bytes: &[u8],
    steps: &Steps<'_>,
    kallsyms: K,
    asker: A,
) -> A::Answer {
    ask(asker, prepare(alloc, bytes, steps, kallsyms))
}

/// A copy of an object.
fn copy(object: &Object) -> Result<Object, AllocError> {
    object.clone()
}

/// Lends a copy of an object.
pub fn on_copy<A: Asker<Object>>(object: &Object, asker: A) -> A::Answer {
    ask(asker, copy(object))
}

/// Lends an object that was made otherwise.
pub fn on_made<E: Debug + Drop, A: Asker<Object>>(made: Result<Object, E>, asker: A) -> A::Answer {
    ask(asker, made)
}

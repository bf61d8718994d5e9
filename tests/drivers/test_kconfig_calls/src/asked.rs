//! What is asked of objects.

use super::defined::{is_as_libbpf, is_left, is_too_large};
use super::listed::lists;
use super::referred::{is_refused, refers};
use ebpf_btf::BtfError;
use ebpf_object::Object;
use std::alloc::Global;
use std::fmt::Debug;
use std::test::Fail;
use test_bare_calls::{Asker, on_made};

/// A question.
#[derive(Clone, Copy)]
pub enum Question {
    /// Whether externs are defined as libbpf defines them.
    AsLibbpf,
    /// Whether too much data is refused.
    TooLarge,
    /// Whether an object without externs is left as it was.
    Left,
    /// Whether a load refers to the map of externs.
    Refers,
    /// Whether missing and wrong values are refused, and the object is left as it was.
    Refused,
    /// Whether the list of externs is this.
    Lists(&'static str),
}

/// A question that is put to an object.
#[derive(Clone, Copy)]
struct Asking {
    alloc: Global,
    question: Question,
}

impl Asker<Object> for Asking {
    type Answer = Result<(), Fail>;

    fn asks(self, object: &mut Object) -> Result<(), Fail> {
        match self.question {
            Question::AsLibbpf => is_as_libbpf(self.alloc, object),
            Question::TooLarge => is_too_large(self.alloc, object),
            Question::Left => is_left(self.alloc, object),
            Question::Refers => refers(self.alloc, object),
            Question::Refused => is_refused(self.alloc, object),
            Question::Lists(want) => lists(self.alloc, object, want),
        }
    }

    fn hears<E: Debug>(self, _error: &E) -> Result<(), Fail> {
        Err(Fail::new("no object"))
    }
}

/// Fails where nothing was made, or what was doesn't answer as wanted.
pub fn ask(alloc: Global, made: Result<Object, BtfError>, question: Question) -> Result<(), Fail> {
    on_made(made, Asking { alloc, question })
}

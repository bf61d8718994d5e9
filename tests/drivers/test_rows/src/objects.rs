//! Actions on an object.

use crate::passes::{externs_written, fds_written, linked, missing, sanitized, types_relocated};
use crate::patched::patched;
use crate::resolved::resolved;
use crate::tables::put_table;
use ebpf_object::Object;
use ebpf_object::obj::ParseMode;
use std::alloc::{AllocError, Global};
use std::fmt::Debug;
use test_bare_calls::{Asker, on_parsed};
use test_cases::{Action, Files, no_action};
use test_tables::put_types;

/// The tables that the words name, one after the other.
fn put_tables(alloc: Global, object: &Object, action: &Action<'_>) -> Result<String, AllocError> {
    let mut text = String::new(alloc);
    for table in &action.words {
        put_table(alloc, &mut text, object, table)?;
    }
    Ok(text)
}

/// The types from an id on.
fn types(alloc: Global, object: &Object, action: &Action<'_>) -> Result<String, AllocError> {
    let mut text = String::new(alloc);
    if let (Some(btf), Some(from)) = (&object.btf, action.small_number(0)) {
        put_types(&mut text, btf, from as usize)?;
    }
    Ok(text)
}

/// An action on the object of a file.
#[derive(Clone, Copy)]
struct OnObject<'a> {
    alloc: Global,
    files: &'a Files,
    action: &'a Action<'a>,
}

impl<'a> Asker<Object> for OnObject<'a> {
    type Answer = Result<String, AllocError>;

    /// What the action gives of an object, which it may change.
    fn asks(self, object: &mut Object) -> Result<String, AllocError> {
        let (alloc, files, action) = (self.alloc, self.files, self.action);
        match action.name {
            "is_object" => String::from_str(alloc, "parsed"),
            "parsed" => put_tables(alloc, object, action),
            "types" => types(alloc, object, action),
            "linked" => linked(alloc, object, action),
            "types_relocated" => types_relocated(alloc, files, object, action),
            "fds_written" => fds_written(alloc, object, action),
            "missing" => missing(alloc, object, action),
            "externs_written" => externs_written(alloc, object, action),
            "resolved" | "resolved_text" => resolved(alloc, files, object, action),
            "patched" => patched(alloc, files, object, action),
            "sanitized" => sanitized(alloc, object, action),
            _ => no_action(alloc),
        }
    }

    fn hears<E: Debug>(self, error: &E) -> Result<String, AllocError> {
        format!(in self.alloc; "{error:?}")
    }
}

/// How the file of an action is read.
fn parse_mode_of(action: &Action<'_>) -> ParseMode {
    if action.is_broad {
        return ParseMode::Lenient;
    }
    ParseMode::Strict
}

/// What an action gives of the object that the bytes are, or the error.
pub fn on_object(
    alloc: Global,
    files: &Files,
    bytes: &[u8],
    action: &Action<'_>,
) -> Result<String, AllocError> {
    let asker = OnObject {
        alloc,
        files,
        action,
    };
    on_parsed(alloc, bytes, parse_mode_of(action), asker)
}

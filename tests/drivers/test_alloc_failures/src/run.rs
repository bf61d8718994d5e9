//! The subjects of calls.

use crate::loader::types_for_kernel;
use crate::object::{on_object, parse};
use crate::prepared::on_steps;
use crate::types::on_parsed_types;
use ebpf_btf::{Btf, Endianness};
use ebpf_parts::ParseMode;
use std::fmt::Debug;
use std::io;
use test_bare_calls::{Asker, on_types};
use test_marked_calls::{
    Call, Files, Kernel, on_code, on_file, on_small, parse_types, say, take_types,
};

/// The calls before the one that is looked at, and that one; one without a name where there is none.
fn split<'a>(
    rt: &'a HostRuntime,
    kernel: Kernel<'a>,
    calls: &'a [String],
) -> (&'a [String], Call<'a>) {
    match calls.split_last() {
        Some((last, front)) => (front, Call::new(rt, kernel, last.as_str())),
        None => (calls, Call::new(rt, kernel, "")),
    }
}

/// Calls on the bytes of an object, or on nothing.
fn on_bytes<'a>(
    bytes: &[u8],
    subject: &str,
    front: &'a [String],
    last: &Call<'a>,
) -> io::Result<()> {
    match subject {
        "parse" => parse(bytes, last),
        "prepare" => on_steps(bytes, false, last),
        "inspect" => on_steps(bytes, true, last),
        "kernel_types" => types_for_kernel(bytes, last),
        "object" => on_object(bytes, ParseMode::Strict, front, last),
        "broad" => on_object(bytes, ParseMode::Lenient, front, last),
        "code" => on_code(bytes, last),
        "file" => on_file(bytes, last),
        "small" => on_small(last),
        _ => say(last.rt, "no subject ", subject),
    }
}

/// Calls that may be given a kernel's types.
fn with_kernel(
    rt: &HostRuntime,
    files: &Files,
    types: Option<&Btf>,
    subject: &str,
    calls: &[String],
) -> io::Result<()> {
    let (front, last) = split(rt, files.kernel(types), calls);
    on_bytes(files.object.as_slice(), subject, front, &last)
}

/// Calls that are given a kernel's types.
#[derive(Clone, Copy)]
struct WithTypes<'a> {
    rt: &'a HostRuntime,
    files: &'a Files,
    subject: &'a str,
    calls: &'a [String],
}

impl<'a> Asker<Btf> for WithTypes<'a> {
    type Answer = io::Result<()>;

    fn asks(self, types: &mut Btf) -> io::Result<()> {
        with_kernel(self.rt, self.files, Some(types), self.subject, self.calls)
    }

    fn hears<E: Debug>(self, error: &E) -> io::Result<()> {
        say(self.rt, "no types: ", error)
    }
}

/// The same, of the file of types.
fn with_types(rt: &HostRuntime, files: &Files, subject: &str, calls: &[String]) -> io::Result<()> {
    let given = WithTypes {
        rt,
        files,
        subject,
        calls,
    };
    on_types(
        rt.alloc(),
        files.types.as_slice(),
        Endianness::Little,
        given,
    )
}

/// Calls on the types themselves, or others that are given them.
fn of_types(rt: &HostRuntime, files: &Files, subject: &str, calls: &[String]) -> io::Result<()> {
    let bytes = files.types.as_slice();
    let (front, last) = split(rt, files.kernel(None), calls);
    match subject {
        "parse_types" => parse_types(bytes, &last),
        "take_types" => take_types(bytes, &last),
        "types" => on_parsed_types(bytes, front, &last),
        _ => with_types(rt, files, subject, calls),
    }
}

/// Makes the calls on the subject.
pub fn run(rt: &HostRuntime, files: &Files, subject: &str, calls: &[String]) -> io::Result<()> {
    if files.types.is_empty() {
        with_kernel(rt, files, None, subject, calls)
    } else {
        of_types(rt, files, subject, calls)
    }
}

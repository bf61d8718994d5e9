//! Files that are prepared or inspected in one call.

use crate::subject::Making;
use ebpf_base::Items;
use ebpf_inspect::{ProgramReport, inspect};
use ebpf_object::prepare::{PrepareError, Steps};
use std::io;
use test_bare_calls::{forget, on_prepared};
use test_marked_calls::{Call, Kernel};

/// The descriptors of maps that are given, some of which objects of tests have.
pub const DESCRIPTORS: [(&'static str, i32); 8] = [
    (".bss", 1),
    (".data", 2),
    (".rodata", 3),
    ("counts", 4),
    ("slots", 5),
    ("tables", 6),
    ("m", 7),
    ("other", 8),
];

/// What is given, where it is chosen.
fn chosen<T: Copy>(given: Option<T>, is_chosen: bool) -> Option<T> {
    if is_chosen { given } else { None }
}

/// The steps whose first letters a word has.
fn steps<'a>(kernel: Kernel<'a>, word: &str, given: &'a [(&'a str, i32)]) -> Steps<'a> {
    Steps {
        target_btf: chosen(kernel.types, word.contains('t')),
        map_fds: chosen(Some(given), word.contains('m')),
        externs: chosen(Some(kernel.types), word.contains('e')),
        calls: word.contains('c'),
        complete: word.contains('r'),
    }
}

/// Prepares the file by these steps.
fn prepare_by(bytes: &[u8], steps: &Steps<'_>, call: &Call<'_>) -> io::Result<()> {
    let (alloc, lines) = (call.rt.alloc(), call.kernel.lines);
    call.begin();
    on_prepared(alloc, bytes, steps, lines, Making(*call))
}

/// The reports of the file's programs by these steps.
fn inspected(
    bytes: &[u8],
    steps: &Steps<'_>,
    call: &Call<'_>,
) -> Result<Items<ProgramReport>, PrepareError> {
    inspect(call.rt.alloc(), bytes, steps, call.kernel.lines)
}

/// Inspects the file by these steps.
fn inspect_by(bytes: &[u8], steps: &Steps<'_>, call: &Call<'_>) -> io::Result<()> {
    call.begin();
    let answer = inspected(bytes, steps, call);
    let said = call.tell(&answer);
    match answer {
        Ok(reports) => drop(reports),
        Err(error) => forget(error),
    }
    said
}

/// Prepares the file by the steps whose first letters the call's name has, or inspects it by them.
pub fn on_steps(bytes: &[u8], is_inspected: bool, call: &Call<'_>) -> io::Result<()> {
    let given = DESCRIPTORS;
    let steps = steps(call.kernel, call.name, &given);
    if is_inspected {
        inspect_by(bytes, &steps, call)
    } else {
        prepare_by(bytes, &steps, call)
    }
}

//! The passes over an object.

use crate::prepared::DESCRIPTORS;
use crate::subject::Marked;
use ebpf_object::Object;
use std::alloc::{AllocError, Global};
use std::collections::HashMap;
use std::io;
use std::io::BufRead;
use test_bare_calls::{
    patch_map_data, relocate_btf, relocate_calls, relocate_externs, relocate_maps, resolve_externs,
    resolve_lines, resolve_text, sanitize_functions,
};
use test_marked_calls::Call;

/// Each of these variables with a value; one whose name has a `?` behind it need not be there.
fn values<'a>(
    alloc: Global,
    names: &'a str,
    value: &'a [u8],
) -> Result<HashMap<&'a str, (&'a [u8], bool)>, AllocError> {
    let mut values = HashMap::new(alloc);
    for name in names.split(',') {
        let bare = name.strip_suffix('?').unwrap_or(name);
        values.insert(bare, (value, bare.len() == name.len()))?;
    }
    Ok(values)
}

/// Writes the kernel's lines as the value of variables.
fn patch_variables(object: &mut Object, call: &Call<'_>) -> io::Result<()> {
    let values = values(call.rt.alloc(), call.word, call.kernel.lines)?;
    patch_map_data(object, values, &Marked(*call))
}

/// Resolves the externs with the kernel's lines, all of them read before.
fn resolve_read_lines(object: &mut Object, call: &Call<'_>) -> io::Result<()> {
    let lines: Vec<io::Result<String>> = call
        .kernel
        .lines
        .lines(call.rt.alloc())
        .collect(call.rt.alloc())?;
    resolve_lines(object, call.kernel.types, lines, &Marked(*call))
}

/// Relocates the functions to a kernel's types where there are some.
fn relocate_types(object: &mut Object, call: &Call<'_>) -> io::Result<()> {
    match call.kernel.types {
        Some(types) => relocate_btf(object, types, &Marked(*call)),
        None => call.miss(),
    }
}

/// Makes the functions fit for a kernel without the newer helper functions.
fn sanitize(object: &mut Object, call: &Call<'_>) -> io::Result<()> {
    call.begin();
    let _ = sanitize_functions(object, false);
    call.tell("done")
}

/// Makes a pass over an object.
pub fn pass(object: &mut Object, call: &Call<'_>) -> io::Result<()> {
    let (alloc, marked) = (call.rt.alloc(), Marked(*call));
    let (types, lines) = (call.kernel.types, call.kernel.lines);
    match call.name {
        "relocate_btf" => relocate_types(object, call),
        "relocate_maps" => relocate_maps(alloc, object, &DESCRIPTORS, &marked),
        "resolve_lines" => resolve_read_lines(object, call),
        "resolve_externs" => resolve_externs(object, types, lines, &marked),
        "resolve_text" => resolve_text(object, types, lines, &marked),
        "relocate_externs" => relocate_externs(object, &marked),
        "relocate_calls" => relocate_calls(alloc, object, &marked),
        "patch_map_data" => patch_variables(object, call),
        "sanitize_functions" => sanitize(object, call),
        _ => call.miss(),
    }
}

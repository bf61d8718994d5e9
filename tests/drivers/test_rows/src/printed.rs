//! What the programs of the command line print of a file.

use ebpf_base::Text;
use cli_plain::{Words, run_inspect, run_link};
use std::alloc::{AllocError, Global};
use test_cases::{Action, Files};

/// What stands behind `NAME=` in a word of the action.
fn named<'a>(action: &Action<'a>, name: &str) -> Option<&'a str> {
    for word in &action.words {
        if let Some((key, value)) = word.split_once('=')
            && key == name
        {
            return Some(value);
        }
    }
    None
}

/// The program that the action names.
fn program_of(alloc: Global, action: &Action<'_>) -> Result<Option<Text>, AllocError> {
    match named(action, "program") {
        Some(name) => Ok(Some(Text::from_str(alloc, name)?)),
        None => Ok(None),
    }
}

/// Words that ask for the program that the action names, or for all.
fn words_of(alloc: Global, action: &Action<'_>) -> Result<Words, AllocError> {
    Ok(Words {
        file: Text::from_str(alloc, "file.o")?,
        btf: None,
        kallsyms: None,
        program: program_of(alloc, action)?,
    })
}

/// The kernel's types, where the action names a file of them.
fn types_of(
    alloc: Global,
    files: &Files,
    action: &Action<'_>,
) -> Result<Option<Vec<u8>>, AllocError> {
    match named(action, "types") {
        Some(name) => Ok(Some(Vec::from_slice(alloc, files.get(name))?)),
        None => Ok(None),
    }
}

/// Runs `ebpf-link` or `ebpf-inspect`: its status.
fn run(
    alloc: Global,
    files: &Files,
    action: &Action<'_>,
    words: &Words,
    types: Option<Vec<u8>>,
    out: &mut Vec<u8>,
    err: &mut Vec<u8>,
) -> u8 {
    let (object, kallsyms) = (files.get("object"), files.get("kallsyms"));
    if action.name == "link" {
        run_link(alloc, words, object, types, kallsyms, out, err)
    } else {
        run_inspect(alloc, words, object, types, kallsyms, out, err)
    }
}

/// A status, and what was written.
fn output_text(alloc: Global, status: u8, out: &[u8], err: &[u8]) -> Result<String, AllocError> {
    let out = str::from_utf8(out).unwrap_or("no text\n");
    let err = str::from_utf8(err).unwrap_or("no text\n");
    format!(in alloc; "status {status}\n{out}{err}")
}

/// What `ebpf-link` or `ebpf-inspect` prints.
pub fn printed(alloc: Global, files: &Files, action: &Action<'_>) -> Result<String, AllocError> {
    let words = words_of(alloc, action)?;
    let mut out = Vec::new(alloc);
    let mut err = Vec::new(alloc);
    let types = types_of(alloc, files, action)?;
    let status = run(alloc, files, action, &words, types, &mut out, &mut err);
    output_text(alloc, status, &out, &err)
}

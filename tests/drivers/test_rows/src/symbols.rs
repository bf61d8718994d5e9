//! Actions on a list of a kernel's addresses, the file `kallsyms`, by name: their words say the externs, or none where the
//! file `object` is prepared.

use crate::prepared::{Outcome, Wanted};
use ebpf_object::prepare::{Steps, SymbolText};
use std::alloc::{AllocError, Global};
use test_bare_calls::on_prepared;
use test_cases::{Action, FailingReader, Files};
use test_symbols::{Question, of_question, on_lines};

/// The passes that find externs, write them, and link programs.
const STEPS: Steps<'static> = Steps {
    target_btf: None,
    map_fds: None,
    externs: Some(None),
    calls: true,
    complete: false,
};

/// The externs of an object.
fn externs(alloc: Global) -> Outcome {
    Outcome {
        alloc,
        wanted: Wanted::Externs,
    }
}

/// A file to prepare, whose externs are looked up in the lines that a reader or a text gives.
#[derive(Clone, Copy)]
struct File<'a> {
    bytes: &'a [u8],
}

impl<'a> Question for File<'a> {
    fn answer(&self, alloc: Global, reader: &mut FailingReader<'_>) -> Result<String, AllocError> {
        on_prepared(alloc, self.bytes, &STEPS, reader, externs(alloc))
    }

    fn answer_text(&self, alloc: Global, text: &[u8]) -> Result<String, AllocError> {
        on_prepared(alloc, self.bytes, &STEPS, SymbolText(text), externs(alloc))
    }
}

/// What an action of this name gives.
pub fn on_symbols(
    alloc: Global,
    files: &Files,
    action: &Action<'_>,
    name: &str,
) -> Result<String, AllocError> {
    let lines = files.get("kallsyms");
    if let Some(name) = name.strip_prefix("prepared_") {
        let bytes = files.get("object");
        return of_question(alloc, &File { bytes }, lines, name);
    }
    on_lines(alloc, lines, action, name)
}

//! What is asked of the lines that a reader or a text gives, and what looking up the addresses of externs answers.

use ebpf_base::ByName;
use ebpf_btf::Btf;
use ebpf_ksyms::{KsymsError, resolve_externs, resolve_text};
use ebpf_model::ExternDesc;
use std::alloc::{AllocError, Global};
use test_cases::{FailingReader, shown};

/// What is asked of lines.
pub trait Question {
    /// The answer where a reader gives them, line by line.
    fn answer(&self, alloc: Global, reader: &mut FailingReader<'_>) -> Result<String, AllocError>;

    /// The answer where they are those of a text in memory.
    fn answer_text(&self, alloc: Global, text: &[u8]) -> Result<String, AllocError>;
}

/// The externs of an object, and its types.
#[derive(Drop)]
pub struct TypedExterns {
    pub externs: ByName<ExternDesc>,
    pub types: Btf,
}

/// A line for an extern.
fn put_extern(text: &mut String, name: &str, found: &ExternDesc) -> Result<(), AllocError> {
    let (resolved, address) = (found.is_resolved, found.ksym_addr);
    write!(text, "\nextern {name} resolved {resolved} {address:?}")
}

/// A line for each extern, in byte order of their names.
fn put_externs(
    alloc: Global,
    text: &mut String,
    externs: &ByName<ExternDesc>,
) -> Result<(), AllocError> {
    for name in externs.names(alloc)? {
        if let Some(found) = externs.get(name) {
            put_extern(text, name, found)?;
        }
    }
    Ok(())
}

/// An answer, and the externs then.
fn with_externs(
    alloc: Global,
    mut answer: String,
    externs: &ByName<ExternDesc>,
) -> Result<String, AllocError> {
    put_externs(alloc, &mut answer, externs)?;
    Ok(answer)
}

/// The answer that these externs are found.
pub fn found(alloc: Global, externs: &ByName<ExternDesc>) -> Result<String, AllocError> {
    with_externs(alloc, String::from_str(alloc, "Ok")?, externs)
}

impl TypedExterns {
    /// The answer, and the externs then: those before, where it is a refusal.
    fn answer_of(
        &self,
        alloc: Global,
        answer: Result<ByName<ExternDesc>, KsymsError>,
    ) -> Result<String, AllocError> {
        match answer {
            Ok(externs) => found(alloc, &externs),
            Err(error) => with_externs(alloc, shown(alloc, error)?, &self.externs),
        }
    }
}

impl Question for TypedExterns {
    fn answer(&self, alloc: Global, reader: &mut FailingReader<'_>) -> Result<String, AllocError> {
        let answer = resolve_externs(alloc, Some(&self.types), &self.externs, None, reader);
        self.answer_of(alloc, answer)
    }

    fn answer_text(&self, alloc: Global, text: &[u8]) -> Result<String, AllocError> {
        let answer = resolve_text(alloc, Some(&self.types), &self.externs, None, text);
        self.answer_of(alloc, answer)
    }
}

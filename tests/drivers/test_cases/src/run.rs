//! Cases that are run.

use crate::action::Action;
use crate::files::Files;
use crate::task::Task;
use std::alloc::{AllocError, Global};
use std::io::{self, BufWriter, Write};
use std::{env, fs};

/// What actions give.
pub trait Outcomes {
    /// What an action gives of the files of its case, as lines.
    fn outcome(
        &self,
        alloc: Global,
        files: &Files,
        action: &Action<'_>,
    ) -> Result<String, AllocError>;
}

/// Writes an action's words and, each behind two spaces, the lines of its outcome.
fn write_outcome<W: Write>(out: &mut W, words: &str, outcome: &str) -> io::Result<()> {
    writeln!(out, " {words}")?;
    for line in outcome.lines() {
        writeln!(out, "  {line}")?;
    }
    Ok(())
}

/// Writes an action and what it gives of the files of its case.
fn run_action<O: Outcomes, W: Write>(
    alloc: Global,
    outcomes: &O,
    files: &Files,
    words: &str,
    out: &mut W,
) -> io::Result<()> {
    let action = Action::read(alloc, words)?;
    let outcome = outcomes.outcome(alloc, files, &action)?;
    write_outcome(out, words, outcome.as_str())
}

/// Runs the cases of a text. Writes the name of each case, its actions and what they give; and, for a line that is no
/// line of a case, that it is none.
fn run_text<O: Outcomes, W: Write>(
    alloc: Global,
    outcomes: &O,
    text: &str,
    out: &mut W,
) -> io::Result<()> {
    let mut files = Files::new(alloc);
    for line in text.lines() {
        match Task::take(&mut files, line)? {
            Task::Nothing => {}
            Task::Case(name) => writeln!(out, "{name}")?,
            Task::Unknown => writeln!(out, "no case: {line}")?,
            Task::Action(words) => run_action(alloc, outcomes, &files, words, out)?,
        }
    }
    Ok(())
}

/// Runs the cases of a file.
fn run_file<O: Outcomes, W: Write>(
    rt: &HostRuntime,
    outcomes: &O,
    path: &str,
    out: &mut W,
) -> io::Result<()> {
    let text = fs::read_to_string(rt, path)?;
    run_text(rt.alloc(), outcomes, text.as_str(), out)
}

/// Runs the cases of the files that the command line names, and prints what they give.
///
/// # Errors
///
/// Where a file can't be read or nothing can be written, and where memory was refused.
pub fn run_cases<O: Outcomes>(rt: &HostRuntime, outcomes: &O) -> io::Result<()> {
    let mut out = BufWriter::new(rt.alloc(), rt.stdout())?;
    for path in env::args(rt)?.skip(1) {
        run_file(rt, outcomes, path.as_str(), &mut out)?;
    }
    out.flush()
}

//! `bench_prepare`: how long type information takes to be read, to be indexed and to be asked, and how long an object takes
//! from its file to finished programs.
//!
//! `types FILE` is run on the `.BTF` of a file, `types --generated` on one that it makes of a kernel's size; `types` may
//! be left out. `prepare FILE` is run on an object.
#![tactic(auto)]

mod preparing;
mod words;

use crate::preparing::measure_preparing;
use crate::words::{Task, read_words};
use bench_types::{BenchError, measure_types};
use std::process::ExitCode;
use std::{env, io};

/// Prints the usage lines, as a refusal of the words.
fn usage(rt: &HostRuntime) -> Result<u8, BenchError> {
    eprintln!(rt; "usage: bench_prepare types FILE, or bench_prepare types --generated")?;
    eprintln!(rt; "       bench_prepare prepare FILE [--btf FILE] [--kallsyms FILE] [--runs N]")?;
    Ok(2)
}

/// The words of the command line after the program's own name.
fn gather(rt: &HostRuntime) -> io::Result<Vec<String>> {
    let mut words = Vec::new(rt.alloc());
    for word in env::args(rt)?.skip(1) {
        words.push(word)?;
    }
    Ok(words)
}

/// Measures what the words ask for, and gives the status.
fn run(rt: &HostRuntime) -> Result<u8, BenchError> {
    let words = gather(rt)?;
    match read_words(words.as_slice()) {
        Some(Task::Types(word)) => measure_types(rt, word)?,
        Some(Task::Prepare(sources)) => measure_preparing(rt, &sources)?,
        None => return usage(rt),
    }
    Ok(0)
}

fn main(rt: HostRuntime) -> ExitCode {
    let status = match run(&rt) {
        Ok(status) => status,
        Err(error) => {
            let _ = eprintln!(rt; "bench_prepare: {error}");
            1
        }
    };
    ExitCode::from(status)
}

//! Calls with each of their allocations failing in turn (c/alloc_failures.c of test_marked_calls). Prints of each call its
//! answer, and the value that it works on before and afterwards.
//!
//! `test_alloc_failures FOLDER ROWS PROCESSES` runs the rows 0, 1, .. of a folder, each in a process of its own, so many
//! at once. ROW.args has a row's words, one a line: `WAYS OBJECT TYPES LINES SUBJECT CALL..`. ROW.in has an object, a kernel's
//! types (little endian; no bytes: none) and a kernel's symbols, or what else a call takes as bytes, one behind the other;
//! OBJECT, TYPES and LINES are their sizes. WAYS is 1 where an allocation fails alone, 2 where it also fails with all behind
//! it. The calls are made one after the other on one value, the last one between two marks. A call is a name, and a word
//! behind `=` where it asks for one.
#![tactic(auto)]

mod loader;
mod object;
mod passes;
mod prepared;
mod run;
mod subject;
mod types;

use crate::run::run;
use std::{env, fs, io};
use test_marked_calls::{Files, choose_failures, row};

/// The number that a word is; 0 where it is none.
fn number(word: &str) -> usize {
    word.parse::<usize>().unwrap_or(0)
}

/// The files of a row, which stand one behind the other, by their sizes.
fn files(rt: &HostRuntime, bytes: &[u8], object: usize, types: usize) -> io::Result<Files> {
    let (object, behind) = bytes.split_at(object.min(bytes.len()));
    let (types, lines) = behind.split_at(types.min(behind.len()));
    Ok(Files {
        object: Vec::from_slice(rt.alloc(), object)?,
        types: Vec::from_slice(rt.alloc(), types)?,
        lines: Vec::from_slice(rt.alloc(), lines)?,
    })
}

/// Makes the calls of a row.
fn run_row(rt: &HostRuntime, folder: &str, number_of_row: i64) -> io::Result<()> {
    let args = format!(in rt.alloc(); "{folder}/{number_of_row}.args")?;
    let text = fs::read_to_string(rt, args.as_str())?;
    let input = format!(in rt.alloc(); "{folder}/{number_of_row}.in")?;
    let bytes = fs::read(rt, input.as_str())?;
    let mut words: Vec<String> = Vec::new(rt.alloc());
    for line in text.as_str().lines() {
        words.push(line.to_string(rt.alloc())?)?;
    }
    let [ways, object, types, _lines, subject, calls @ ..] = words.as_slice() else {
        return println!(rt; "no words");
    };
    choose_failures(ways.as_str() == "2");
    let files = files(rt, bytes.as_slice(), number(object.as_str()), number(types.as_str()))?;
    run(rt, &files, subject.as_str(), calls)
}

fn main(rt: HostRuntime) -> io::Result<()> {
    let words: Vec<String> = env::args(&rt)?.skip(1).collect(rt.alloc())?;
    let [folder, rows, at_once] = words.as_slice() else {
        return println!(&rt; "usage: test_alloc_failures FOLDER ROWS PROCESSES");
    };
    let number_of_row = row(
        folder.as_str(),
        number(rows.as_str()) as i64,
        number(at_once.as_str()) as i64,
    );
    if number_of_row < 0 {
        return Ok(());
    }
    run_row(&rt, folder.as_str(), number_of_row)
}

//! Each variant of each error, with the sentence that it prints: a line `TYPE::VARIANT: SENTENCE` for each. docs/ERRORS.md
//! is made of these lines. The command line names an object file, whose names some of them show.
#![tactic(auto)]

mod btf_maps;
mod callbacks;
mod chosen;
mod explained;
mod externs;
mod file;
mod initial_slots;
mod kernel_types;
mod least_types;
mod lines;
mod object;
mod prepare;
mod records;
mod settings;
mod slots;
mod small_object;
mod struct_ops;
mod types;

use crate::lines::Lines;
use std::{env, fs, io};

/// Adds all errors; of a file those that its names add to.
fn show_all(lines: &mut Lines, file: &[u8]) {
    prepare::show_all(lines);
    explained::show_all(lines, file);
    file::show_all(lines);
    types::show_all(lines);
    object::show_all(lines);
    records::show_all(lines);
    slots::show_all(lines);
    externs::show_all(lines);
    settings::show_all(lines);
    btf_maps::show_all(lines);
    callbacks::show_all(lines);
    initial_slots::show_all(lines);
    struct_ops::show_all(lines);
    chosen::show_all(lines);
    kernel_types::show_all(lines);
    least_types::show_all(lines);
}

/// Prints all errors, with what the names of a file add.
fn print_all(rt: &HostRuntime, file: &[u8]) -> io::Result<()> {
    let mut lines = Lines::new(rt.alloc());
    show_all(&mut lines, file);
    let text = lines.whole()?;
    print!(rt; "{text}")
}

fn main(rt: HostRuntime) -> io::Result<()> {
    for path in env::args(&rt)?.skip(1) {
        let file = fs::read(&rt, path.as_str())?;
        print_all(&rt, &file)?;
    }
    Ok(())
}

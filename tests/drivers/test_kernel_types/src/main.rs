//! Prints the types of objects as the kernel takes them, in hexadecimal digits. Its words are files: of each one line,
//! `none` where it has no types, `refused: ..` where they can't be made.
#![tactic(auto)]

use ebpf_btf_load::kernel_types;
use std::{env, fs, io};

/// Prints bytes in hexadecimal digits.
fn print_bytes(rt: &HostRuntime, bytes: &[u8]) -> io::Result<()> {
    for byte in bytes {
        print!(rt; "{byte:02x}")?;
    }
    println!(rt; "")
}

/// Prints the types of a file.
fn print_types(rt: &HostRuntime, path: &str) -> io::Result<()> {
    let file = fs::read(rt, path)?;
    match kernel_types(rt.alloc(), file.as_slice()) {
        Ok(Some(bytes)) => print_bytes(rt, bytes.as_slice()),
        Ok(None) => println!(rt; "none"),
        Err(error) => println!(rt; "refused: {error}"),
    }
}

fn main(rt: HostRuntime) -> io::Result<()> {
    for word in env::args(&rt)?.skip(1) {
        print_types(&rt, word.as_str())?;
    }
    Ok(())
}

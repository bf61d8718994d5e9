//! Prints what the objects of files own and what is counted of the files. Its words are files, of which each line is a
//! number and a path: the number of bytes that may be counted of the file there.
//!
//! A line of a file: its path, the bytes that are held while its object is there, the most that were held at once while
//! it was parsed, and the least limit within which it is parsed; or the file's fault.
#![tactic(auto)]

use ebpf_limits::{Limits, parse_within};
use ebpf_object::Object;
use ebpf_parts::{ParseError, ParseMode};
use std::alloc::Global;
use std::{env, fs, io};

// c/live_bytes.c
unsafe extern "C" {
    safe fn live_bytes_begin();
    safe fn live_bytes() -> i64;
    safe fn most_bytes() -> i64;
}

/// Whether what is made of a file fits a limit.
fn fits(alloc: Global, file: &[u8], most_bytes: u64) -> bool {
    !matches!(
        parse_within(alloc, file, ParseMode::Lenient, Limits { most_bytes }),
        Err(ParseError::TooLarge { .. })
    )
}

/// The least limit within which a file is parsed. It may be `guess`, which is tried first.
fn least_limit(alloc: Global, file: &[u8], guess: u64) -> u64 {
    if fits(alloc, file, guess) && !fits(alloc, file, guess.saturating_sub(1)) {
        return guess;
    }
    let mut high = 1 << 14;
    while high < 1 << 60 && !fits(alloc, file, high) {
        high *= 2;
    }
    let mut low = high / 2;
    while low + 1 < high {
        let middle = (low + high) / 2;
        if fits(alloc, file, middle) {
            high = middle;
        } else {
            low = middle;
        }
    }
    high
}

/// What is held for the object of a file: while it is there, and at most while it is parsed.
fn held(alloc: Global, file: &[u8]) -> Result<(i64, i64), ParseError> {
    let _ = most_bytes();
    let before = live_bytes();
    let object = Object::parse_as(alloc, file, ParseMode::Lenient)?;
    let after = live_bytes();
    drop(object);
    Ok((after - before, most_bytes() - before))
}

/// Prints the line of a file.
fn print_line(rt: &HostRuntime, guess: &str, path: &str) -> io::Result<()> {
    let file = fs::read(rt, path)?;
    match held(rt.alloc(), &file) {
        Ok((bytes, most)) => {
            let limit = least_limit(rt.alloc(), &file, guess.parse::<u64>().unwrap_or(0));
            println!(rt; "{path} {bytes} {most} {limit}")
        }
        Err(error) => println!(rt; "{path} refused: {error}"),
    }
}

fn main(rt: HostRuntime) -> io::Result<()> {
    live_bytes_begin();
    for word in env::args(&rt)?.skip(1) {
        let lines = fs::read_to_string(&rt, word.as_str())?;
        for line in lines.lines() {
            let (guess, path) = line.split_once(' ').unwrap_or(("0", line));
            print_line(&rt, guess, path)?;
        }
    }
    Ok(())
}

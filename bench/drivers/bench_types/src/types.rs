//! How long type information takes to be read, to be indexed, and to be asked.

use crate::clock::Clock;
use crate::error::BenchError;
use crate::files::read_bytes;
use crate::found::{print_counts, print_last};
use crate::many_types::{KERNEL_GROUPS, many_types};
use ebpf_btf::{Btf, Endianness};
use ebpf_core_candidates::TypeIndex;

/// How often type information is read and indexed, the first time in memory that is new to the process.
const RUNS: u32 = 6;

/// The word for types that are made.
const GENERATED: &str = "--generated";

/// The bytes that are made, where the word asks for them.
fn made_bytes(rt: &HostRuntime, word: &str) -> Result<Vec<u8>, BenchError> {
    if word == GENERATED {
        return Ok(many_types(rt.alloc(), KERNEL_GROUPS)?);
    }
    Ok(Vec::new(rt.alloc()))
}

/// The bytes of a file, or a copy of those that were made.
fn bytes_of(rt: &HostRuntime, word: &str, made: &[u8]) -> Result<Vec<u8>, BenchError> {
    if word == GENERATED {
        return Ok(Vec::from_slice(rt.alloc(), made)?);
    }
    Ok(read_bytes(rt, word)?)
}

/// Makes an index of types and lets it go.
fn index(rt: &HostRuntime, types: &Btf, clock: &mut Clock) -> Result<(), BenchError> {
    let index = TypeIndex::new(rt.alloc(), types)?;
    clock.end(rt, "index");
    drop(index);
    clock.end(rt, "let go of the index");
    Ok(())
}

/// Copies the types out of bytes, and lets them go.
fn parse(rt: &HostRuntime, bytes: &[u8], clock: &mut Clock) -> Result<(), BenchError> {
    clock.begin(rt);
    let types = Btf::parse(rt.alloc(), bytes, Endianness::Little)?;
    clock.end_inner(rt, "  a copy of the types");
    drop(types);
    clock.end_inner(rt, "  let go of the copy");
    Ok(())
}

/// One run: reads the types, indexes them, and lets all go.
fn run(rt: &HostRuntime, word: &str, made: &[u8], clock: &mut Clock) -> Result<(), BenchError> {
    clock.begin(rt);
    let bytes = bytes_of(rt, word, made)?;
    clock.end(rt, "read");
    let types = Btf::from_vec(bytes, Endianness::Little)?;
    clock.end(rt, "types");
    let indexed = index(rt, &types, clock);
    drop(types);
    clock.end(rt, "let go of the types");
    indexed
}

/// Prints what an index of types answers.
fn ask(
    rt: &HostRuntime,
    types: &Btf,
    index: &TypeIndex,
    clock: &mut Clock,
) -> Result<(), BenchError> {
    clock.begin(rt);
    print_counts(rt, types, index)?;
    clock.end_inner(rt, "  candidates and sizes");
    print_last(rt, types, index)?;
    clock.end_inner(rt, "  ten ids by name");
    Ok(())
}

/// Prints what the index of types answers.
fn ask_index(rt: &HostRuntime, types: &Btf, clock: &mut Clock) -> Result<(), BenchError> {
    let index = TypeIndex::new(rt.alloc(), types)?;
    ask(rt, types, &index, clock)
}

/// Prints what the types in bytes answer.
fn ask_bytes(rt: &HostRuntime, bytes: Vec<u8>, clock: &mut Clock) -> Result<(), BenchError> {
    let types = Btf::from_vec(bytes, Endianness::Little)?;
    ask_index(rt, &types, clock)
}

/// Takes the steps with a clock: all runs, as many copies of the types, and what the types answer.
fn measure(rt: &HostRuntime, word: &str, made: &[u8], clock: &mut Clock) -> Result<(), BenchError> {
    for _run in 0..RUNS {
        run(rt, word, made, clock)?;
    }
    let bytes = bytes_of(rt, word, made)?;
    for _run in 0..RUNS {
        parse(rt, &bytes, clock)?;
    }
    ask_bytes(rt, bytes, clock)
}

/// Takes the steps on the `.BTF` of a file, or on bytes that are made. It prints what it found, and on the standard
/// error how long each step took, in microseconds.
pub fn measure_types(rt: &HostRuntime, word: &str) -> Result<(), BenchError> {
    let made = made_bytes(rt, word)?;
    let mut clock = Clock::start(rt)?;
    measure(rt, word, &made, &mut clock)?;
    let text = clock.text()?;
    eprint!(rt; "{text}")?;
    Ok(())
}

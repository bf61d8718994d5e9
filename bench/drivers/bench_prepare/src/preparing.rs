//! How long an object takes from its file to finished programs.

use crate::words::Sources;
use bench_types::{BenchError, read_bytes};
use ebpf_btf::{Btf, Endianness};
use cli_plain::{Failure, prepare_all};
use ebpf_object::Object;
use ebpf_object::prepare::SymbolSource;
use std::fs::{self, File};
use std::io::{self, BufReader};
use std::time::Instant;
use test_bare_calls::{forget, let_go, parsed};

/// The number in a line such as `VmHWM:     1234 kB`, where the line is that one.
fn most_held(line: &str) -> Option<u64> {
    let numbers = line.strip_prefix("VmHWM:")?;
    let number = numbers.split_whitespace().next()?;
    number.parse().ok()
}

/// The most memory that the process held so far, in KB, as /proc tells it; 0 where it does not.
fn peak_kilobytes(rt: &HostRuntime) -> io::Result<u64> {
    let status = fs::read_to_string(rt, "/proc/self/status")?;
    for line in status.as_str().lines() {
        if let Some(number) = most_held(line) {
            return Ok(number);
        }
    }
    Ok(0)
}

/// The object of a file.
fn read_object(rt: &HostRuntime, path: &str) -> Result<Object, BenchError> {
    let bytes = read_bytes(rt, path)?;
    match parsed(rt.alloc(), &bytes) {
        Some(object) => Ok(object),
        None => Err(BenchError::Refused),
    }
}

/// The types in a file.
fn read_types(rt: &HostRuntime, path: &str) -> Result<Option<Btf>, BenchError> {
    let bytes = read_bytes(rt, path)?;
    Ok(Some(Btf::from_vec(bytes, Endianness::Little)?))
}

/// The kernel's types, where they are given and the object needs them: it has CO-RE relocations, or externs with a type.
fn types_for(
    rt: &HostRuntime,
    sources: &Sources<'_>,
    object: &Object,
) -> Result<Option<Btf>, BenchError> {
    match sources.btf {
        Some(path) if object.has_btf_relocations() || object.has_typed_ksyms() => {
            read_types(rt, path)
        }
        _ => Ok(None),
    }
}

/// The lines of the kernel's symbols, which are read where the object needs them; none where they are not given.
fn symbols(rt: &HostRuntime, sources: &Sources<'_>) -> Result<BufReader<File>, BenchError> {
    let path = sources.kallsyms.unwrap_or("/dev/null");
    Ok(BufReader::new(rt.alloc(), fs::open(rt, path)?)?)
}

/// Both of two values, or why the first is missing that is. It knows none of their types, so that its proof doesn't let go
/// of each part of an object.
fn both<A: Drop, B: Drop, E: Drop>(first: Result<A, E>, second: Result<B, E>) -> Result<(A, B), E> {
    let first = first?;
    let second = second?;
    Ok((first, second))
}

/// Why `ebpf-link` would not prepare an object.
fn refused(failure: Failure<'static>) -> BenchError {
    match failure {
        Failure::Btf(error) => BenchError::Types(error),
        Failure::Preparing(error) => {
            forget(error);
            BenchError::Refused
        }
        Failure::CannotRead(_) => BenchError::Refused,
        Failure::NoProgram(_) => BenchError::Refused,
        Failure::CannotWrite => BenchError::Refused,
        Failure::Memory => BenchError::Refused,
    }
}

/// Prepares an object as `ebpf-link` does.
fn finished<K: SymbolSource>(
    rt: &HostRuntime,
    object: Object,
    types: Option<&Btf>,
    symbols: K,
) -> Result<Object, Failure<'static>> {
    prepare_all(rt.alloc(), object, types, symbols)
}

/// The same with a kernel's types and symbols.
fn finish(
    rt: &HostRuntime,
    object: Object,
    given: (Option<Btf>, BufReader<File>),
) -> Result<Object, BenchError> {
    let (types, symbols) = given;
    match finished(rt, object, types.as_ref(), symbols) {
        Ok(object) => Ok(object),
        Err(failure) => Err(refused(failure)),
    }
}

/// The prepared object.
fn prepare(rt: &HostRuntime, sources: &Sources<'_>) -> Result<Object, BenchError> {
    let object = read_object(rt, sources.file)?;
    match both(types_for(rt, sources, &object), symbols(rt, sources)) {
        Ok(given) => finish(rt, object, given),
        Err(error) => {
            let_go(object);
            Err(error)
        }
    }
}

/// The microseconds that preparing takes, without those of letting the object go.
fn time(rt: &HostRuntime, sources: &Sources<'_>) -> Result<u128, BenchError> {
    let start = Instant::now(rt)?;
    let object = prepare(rt, sources)?;
    let time = start.elapsed(rt);
    let_go(object);
    Ok(time?.as_micros())
}

/// The time of each run, in microseconds.
fn times(rt: &HostRuntime, sources: &Sources<'_>) -> Result<Vec<u128>, BenchError> {
    let mut times = Vec::new(rt.alloc());
    for _run in 0..sources.runs {
        times.push(time(rt, sources)?)?;
    }
    Ok(times)
}

/// Prints the times, in the order of the runs.
fn print_times(rt: &HostRuntime, times: &[u128]) -> Result<(), BenchError> {
    print!(rt; "times")?;
    for time in times {
        print!(rt; " {time}")?;
    }
    println!(rt; " us")?;
    Ok(())
}

/// Prints the time of each run, the least and the median time from opening the file to finished programs, and the most memory that the
/// process held. The kernel's types and symbols are read in that time, where the object needs them.
pub fn measure_preparing(rt: &HostRuntime, sources: &Sources<'_>) -> Result<(), BenchError> {
    let mut times = times(rt, sources)?;
    print_times(rt, &times)?;
    times.sort_unstable();
    let runs = times.len();
    let least = times.first().copied().unwrap_or(0);
    let median = times.get(runs / 2).copied().unwrap_or(0);
    let peak = peak_kilobytes(rt)?;
    println!(rt; "prepare least {least} us, median {median} us, peak {peak} KB, {runs} runs")?;
    Ok(())
}

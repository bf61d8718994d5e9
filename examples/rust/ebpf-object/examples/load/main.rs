//! Loads the programs of an eBPF object file into the running kernel, and runs one of them; on bpf(2) and this crate alone.
//!
//! usage: load [--config FILE] [--run PROGRAM] [--data BYTES] [--show MAP|VARIABLE] FILE
//!
//! --config: a file with the kernel's configuration; if left out /boot/config-RELEASE, or /proc/config.gz by `zcat`.
//! --run: runs this program once, and prints what it returns.
//! --data: a file with the bytes that it runs on; 64 zero bytes if left out.
//! --show: prints each key of this map with its value, or the bytes of this variable, at the end.
//!
//! Programs of a section with `?` are loaded where they are to run. Those of `iter` and `tp_btf` don't run by themselves:
//! `examples/loader` attaches them. Each map is made anew, also where it is to be pinned.
//! The status is 0, or 1 with a line on standard error that says whether the library or the kernel refuses, and what.
mod bpf;
mod kconfig;
mod maps;
mod programs;

use ebpf_object::{Object, OpenOptions, Types, Variable};
use maps::Maps;
use programs::Programs;
use std::error::Error;
use std::fs;
use std::process::ExitCode;

const USAGE: &str = "usage: load [--config FILE] [--run PROGRAM] [--data BYTES] [--show MAP|VARIABLE] FILE";

/// Why a step fails.
type Fault = Box<dyn Error>;

#[derive(Default)]
struct Options {
    config: Option<String>,
    run: Option<String>,
    data: Option<String>,
    show: Option<String>,
    file: String,
}

/// The options, or nothing where the words are others.
fn parsed(mut words: impl Iterator<Item = String>) -> Option<Options> {
    let mut options = Options::default();
    while let Some(word) = words.next() {
        match word.as_str() {
            "--config" => options.config = Some(words.next()?),
            "--run" => options.run = Some(words.next()?),
            "--data" => options.data = Some(words.next()?),
            "--show" => options.show = Some(words.next()?),
            _ if word.starts_with("--") || !options.file.is_empty() => return None,
            _ => options.file = word,
        }
    }
    (!options.file.is_empty()).then_some(options)
}

/// What the kernel has of an object, and the places of its variables.
struct Loaded {
    maps: Maps,
    programs: Programs,
    variables: Vec<Variable>,
}

/// The types of the running kernel, which are read once.
fn kernel_types() -> Result<Types, Fault> {
    let types = fs::read("/sys/kernel/btf/vmlinux").map_err(|error| format!("the kernel's types: {error}"))?;
    Ok(Types::read(&types)?)
}

/// The kernel's symbols, which take long to read; none where the object needs none.
fn kernel_symbols(object: &Object) -> Result<Vec<u8>, Fault> {
    if !object.wants_symbols()? {
        return Ok(Vec::new());
    }
    Ok(fs::read("/proc/kallsyms").map_err(|error| format!("the kernel's symbols: {error}"))?)
}

/// From the file to programs that the kernel has, with all that they refer to.
fn load(options: &Options) -> Result<Loaded, Fault> {
    let file = fs::read(&options.file).map_err(|error| format!("{}: {error}", options.file))?;
    let mut object = Object::open(&file, OpenOptions::lenient())?;
    let asked = options.run.as_deref();
    asked.map_or(Ok(()), |name| object.program(name).map(drop))?;
    let kernel = kernel_types()?;
    kconfig::define(&mut object, options.config.as_deref())?;
    let types = bpf::load_types(&object.kernel_types(&file)?)?;
    let maps = Maps::make(&object, types.as_ref())?;
    let initial = object.initial_slots(&file)?;
    for it in initial.iter().filter(|it| !it.is_program) {
        maps.put(&it.map, it.index, maps.descriptor(&it.target)?)?;
    }
    let symbols = kernel_symbols(&object)?;
    let prepared = object.prepare_with(&kernel, &symbols, &maps.descriptors())?;
    let programs = Programs::load(&prepared, &kernel, types.as_ref(), asked)?;
    for it in initial.iter().filter(|it| it.is_program) {
        maps.put(&it.map, it.index, programs.descriptor(&it.target)?)?;
    }
    Ok(Loaded { maps, programs, variables: prepared.variables()? })
}

fn load_and_run(options: &Options) -> Result<(), Fault> {
    let Loaded { maps, programs, variables } = load(options)?;
    if let Some(name) = &options.run {
        let given = options.data.as_ref().map_or(Ok(vec![0; 64]), fs::read)?;
        println!("returned {}", programs.run(name, &given)?);
    }
    match &options.show {
        Some(name) if !maps.has(name) => match variables.iter().find(|it| it.name == *name) {
            Some(variable) => maps.show_variable(variable),
            None => Err(format!("no map {name}, and no variable").into()),
        },
        Some(name) => maps.show(name),
        None => Ok(()),
    }
}

fn main() -> ExitCode {
    let Some(options) = parsed(std::env::args().skip(1)) else {
        eprintln!("{USAGE}");
        return ExitCode::from(2);
    };
    match load_and_run(&options) {
        Ok(()) => ExitCode::SUCCESS,
        Err(error) => {
            eprintln!("load: {error}");
            ExitCode::FAILURE
        }
    }
}

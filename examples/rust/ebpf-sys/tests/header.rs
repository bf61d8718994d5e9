//! Compares these declarations with the header: numbers, layouts of structs, and the types of calls. A C compiler does,
//! on a file of assertions that is made of the crate.
mod layout;

use layout::{Field, Layout, LAYOUTS};
use std::path::{Path, PathBuf};
use std::process::Command;
use std::{env, fs};

/// The folder of the header: that of EBPF_INCLUDE_DIR, of the repository, or of pkg-config.
fn include_folder() -> Option<PathBuf> {
    let of_repository = Path::new(env!("CARGO_MANIFEST_DIR")).join("../../../include");
    if let Some(folder) = env::var_os("EBPF_INCLUDE_DIR") {
        return Some(folder.into());
    }
    if of_repository.join("ebpf.h").is_file() {
        return Some(of_repository);
    }
    let told = Command::new("pkg-config").args(["--variable=includedir", "ebpf"]).output().ok()?;
    let folder = String::from_utf8(told.stdout).ok()?;
    (!folder.trim().is_empty()).then(|| folder.trim().into())
}

/// An assertion for each constant of the crate.
fn numbers() -> String {
    let rows = include_str!("../src/numbers.rs").lines().filter_map(|line| line.strip_prefix("pub const "));
    let parts = rows.map(|row| row.trim_end_matches(';').split_once(": u32 = ").expect("a number"));
    parts.map(|(name, value)| format!("_Static_assert({name} == {value}u, \"{name}\");\n")).collect()
}

/// Assertions for a struct: its size, and where each field begins and how long it is.
fn sizes(of: &Layout) -> String {
    let name = of.name;
    let one = |field: &Field| {
        let it = field.name.trim_end_matches('_');
        let (offset, size) = (field.offset, field.size);
        format!(
            "_Static_assert(offsetof(struct {name}, {it}) == {offset}, \"{name}.{it}\");\n\
             _Static_assert(sizeof(((struct {name} *)0)->{it}) == {size}, \"{name}.{it}\");\n"
        )
    };
    let all: String = of.fields.iter().map(one).collect();
    format!("_Static_assert(sizeof(struct {name}) == {}, \"{name}\");\n{all}", of.size)
}

/// A type of Rust as C has it.
fn in_c(kind: &str) -> String {
    for (mark, words) in [("*const ", " const"), ("*mut ", "")] {
        if let Some(rest) = kind.strip_prefix(mark) {
            return format!("{}{words} *", in_c(rest));
        }
    }
    let numbers =
        [("u8", "uint8_t"), ("u32", "uint32_t"), ("u64", "uint64_t"), ("usize", "size_t"), ("c_char", "char")];
    let known = numbers.iter().find(|(name, _)| *name == kind);
    known.map_or(format!("struct {kind}"), |(_, name)| (*name).to_owned())
}

/// A pointer for each call: the compiler compares the types.
fn calls() -> String {
    let text = include_str!("../src/calls.rs").split_whitespace().collect::<Vec<_>>().join(" ");
    let one = |call: &str| {
        let (name, rest) = call.split_once('(').expect("a name");
        let (given, rest) = rest.split_once(')').expect("parameters");
        let result = rest.split_once("-> ").map_or("void".to_owned(), |(_, it)| in_c(it));
        let kinds = given.split(", ").filter_map(|it| it.split_once(": "));
        let kinds: Vec<String> = kinds.map(|(_, kind)| in_c(kind.trim_end_matches([',', ' ']))).collect();
        let kinds = if kinds.is_empty() { "void".to_owned() } else { kinds.join(", ") };
        format!("{result} (*call_{name})({kinds}) = {name};\n")
    };
    let parts = text.split("pub fn ").skip(1);
    parts.map(|it| one(it.split_once(';').expect("an end").0)).collect()
}

#[test]
fn declarations_are_those_of_the_header() {
    let folder = include_folder().expect("ebpf.h: set EBPF_INCLUDE_DIR to the folder that has it");
    let structs: String = LAYOUTS.iter().map(sizes).collect();
    let text = format!("#include <ebpf.h>\n{}{structs}{}", numbers(), calls());
    let file = Path::new(env!("CARGO_TARGET_TMPDIR")).join("compared.c");
    fs::write(&file, text).expect("a file is written");
    let compiler = env::var("CC").unwrap_or_else(|_| "cc".to_owned());
    let words = ["-std=c11", "-Werror", "-fsyntax-only", "-I"];
    let compiled = Command::new(compiler).args(words).arg(folder).arg(&file).output().expect("a C compiler");
    assert!(compiled.status.success(), "{}", String::from_utf8_lossy(&compiled.stderr));
}

#[test]
fn the_library_has_the_version_of_the_header() {
    // SAFETY: the call is given nothing.
    let version = unsafe { ebpf_sys::ebpf_version_number() };
    assert_eq!((version, ebpf_sys::ebpf_check_version()), (ebpf_sys::EBPF_VERSION_NUMBER, ebpf_sys::EBPF_DONE));
    let text = format!("{}.{}.{}", version / 1_000_000, version / 1_000 % 1_000, version % 1_000);
    assert_eq!(text, env!("CARGO_PKG_VERSION"));
}

//! The words of a command line, and what is said where a file can't be read or a writer fails.

use ebpf_base::Text;
use cli_plain::{Words, WordsError, cannot_read, read_words, run_link};
use std::alloc::{AllocError, Global};
use std::io::{self, ErrorKind, Write};
use std::test::Fail;
use test_same::{holds, same, same_bytes, same_number};

/// The words of a line.
fn words_in(alloc: Global, line: &str) -> Result<Vec<String>, AllocError> {
    let mut words = Vec::new(alloc);
    for word in line.split_whitespace() {
        words.push(String::from_str(alloc, word)?)?;
    }
    Ok(words)
}

/// The words of a line, read.
fn read(alloc: Global, line: &str) -> Result<Words, WordsError> {
    let words = words_in(alloc, line)?;
    read_words(alloc, &words)
}

/// The file, the program and the two other files that words name.
fn word_text(alloc: Global, words: &Words) -> Result<String, AllocError> {
    let mut text = String::new(alloc);
    write!(text, "{} {:?}", words.file.as_str(), words.program())?;
    add_named(&mut text, &words.btf)?;
    add_named(&mut text, &words.kallsyms)?;
    Ok(text)
}

/// Adds a file's name.
fn add_named(text: &mut String, file: &Option<Text>) -> Result<(), AllocError> {
    match file {
        Some(name) => write!(text, " {}", name.as_str())?,
        None => write!(text, " none")?,
    }
    Ok(())
}

#[test]
fn reads_words_in_any_order(rt: HostRuntime) -> Result<(), Fail> {
    let line = "--program --x file.o --btf types --kallsyms --btf";
    let words = read(rt.alloc(), line)?;
    let text = word_text(rt.alloc(), &words)?;
    same(text.as_str(), "file.o Some(\"--x\") types --btf")
}

/// Fails where the words of a line don't give the usage line, or give it and shouldn't.
fn is_refused(alloc: Global, line: &str, want: bool) -> Result<(), Fail> {
    let got = matches!(read(alloc, line), Err(WordsError::Usage));
    holds(got == want, line)
}

#[test]
fn refuses_other_words(rt: HostRuntime) -> Result<(), Fail> {
    for line in [
        "",
        "a b",
        "a --btf",
        "a --x",
        "a --",
        "--program a --program b c",
        "--program a",
    ] {
        is_refused(rt.alloc(), line, true)?;
    }
    is_refused(rt.alloc(), "-", false)
}

/// A writer that fails.
#[derive(Debug, Drop)]
struct Full;

impl Write for Full {
    fn write(&mut self, _bytes: &[u8]) -> io::Result<usize> {
        Err(io::Error::from(ErrorKind::Other))
    }

    fn flush(&mut self) -> io::Result<()> {
        Err(io::Error::from(ErrorKind::Other))
    }
}

/// Says that a file can't be read, to a writer.
fn say<W: Write>(err: &mut W) -> u8 {
    cannot_read("ebpf-link", "no/such.o", err)
}

#[test]
fn says_that_it_cannot_read(rt: HostRuntime) -> Result<(), Fail> {
    let mut err = Vec::new(rt.alloc());
    same_number(u64::from(say(&mut err)), 1)?;
    let want = b"ebpf-link: cannot read no/such.o\n".as_slice();
    same_bytes(err.as_slice(), want)?;
    same_number(u64::from(say(&mut Full)), 1)
}

/// The words of four bytes that are not 0, with their places, of an object of 98 words: the program `p` of one slot in the
/// section `kprobe`.
const OBJECT: [(usize, u32); 28] = [
    // The header.
    (0, 0x464c457f),
    (1, 0x10102),
    (4, 0xf70001),
    (5, 0x1),
    (10, 0x88),
    (13, 0x40),
    (14, 0x400000),
    (15, 0x30004),
    // The slot, the symbol `p`, and the names.
    (16, 0x95),
    (24, 0x1),
    (25, 0x10012),
    (28, 0x8),
    (30, 0x6b007000),
    (31, 0x626f7270),
    (32, 0x65),
    // The section of the program, that of the symbols, and that of the names.
    (50, 0x3),
    (51, 0x1),
    (52, 0x6),
    (56, 0x40),
    (58, 0x8),
    (67, 0x2),
    (72, 0x48),
    (74, 0x30),
    (76, 0x3),
    (77, 0x1),
    (83, 0x3),
    (88, 0x78),
    (90, 0xa),
];

/// Numbers as bytes, the low byte first.
fn bytes_of(alloc: Global, words: &[u32]) -> Result<Vec<u8>, AllocError> {
    let mut bytes = Vec::new(alloc);
    for word in words {
        bytes.extend_from_slice(&word.to_le_bytes())?;
    }
    Ok(bytes)
}

/// The object's bytes.
fn object(alloc: Global) -> Result<Vec<u8>, AllocError> {
    let mut words = [0u32; 98];
    for (at, word) in OBJECT {
        if let Some(place) = words.get_mut(at) {
            *place = word;
        }
    }
    bytes_of(alloc, &words)
}

/// The status of linking a file's programs.
fn link<O: Write>(alloc: Global, words: &Words, file: &[u8], out: &mut O, err: &mut Vec<u8>) -> u8 {
    let none: &[u8] = &[];
    run_link(alloc, words, file, None, none, out, err)
}

/// Fails where the object isn't linked, or is though the writer fails.
fn links(alloc: Global, words: &Words, file: &[u8], err: &mut Vec<u8>) -> Result<(), Fail> {
    let mut out = Vec::new(alloc);
    same_number(u64::from(link(alloc, words, file, &mut out, err)), 0)?;
    same_number(u64::from(link(alloc, words, file, &mut Full, err)), 1)
}

#[test]
fn says_that_it_cannot_write(rt: HostRuntime) -> Result<(), Fail> {
    let words = read(rt.alloc(), "file.o")?;
    let file = object(rt.alloc())?;
    let mut err = Vec::new(rt.alloc());
    links(rt.alloc(), &words, &file, &mut err)?;
    same_bytes(err.as_slice(), b"ebpf-link: cannot write\n".as_slice())
}

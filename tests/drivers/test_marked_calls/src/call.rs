//! Calls by their names, and the marks around the one that is looked at.

use ebpf_btf::Btf;
use std::fmt::Debug;
use std::io;

// c/alloc_failures.c
unsafe extern "C" {
    safe fn alloc_failures_row(folder: &[u8], rows: i64, at_once: i64) -> i64;
    safe fn alloc_failures_choose(both: i32);
    safe fn alloc_failures_begin();
    safe fn alloc_failures_end();
}

/// In the process of each of so many rows of a folder, of which so many run at once, the row's number; a negative number in
/// the first process, once all have ended.
pub fn row(folder: &str, rows: i64, at_once: i64) -> i64 {
    alloc_failures_row(folder.as_bytes(), rows, at_once)
}

/// Chooses whether an allocation also fails with all behind it.
pub fn choose_failures(both: bool) {
    alloc_failures_choose(i32::from(both));
}

/// The bytes of the files.
#[derive(Drop)]
pub struct Files {
    pub object: Vec<u8>,
    pub types: Vec<u8>,
    pub lines: Vec<u8>,
}

/// A kernel's types where there are some, and its symbols line by line.
#[derive(Clone, Copy)]
pub struct Kernel<'a> {
    pub types: Option<&'a Btf>,
    pub lines: &'a [u8],
}

impl Files {
    /// What calls are given of a kernel.
    pub fn kernel<'a>(&'a self, types: Option<&'a Btf>) -> Kernel<'a> {
        Kernel {
            types,
            lines: self.lines.as_slice(),
        }
    }
}

/// The name of a call, the word behind it (the empty one where there is none), what it may be given of a kernel, where it
/// is told, and whether it is the one that is looked at.
#[derive(Clone, Copy)]
pub struct Call<'a> {
    pub rt: &'a HostRuntime,
    pub kernel: Kernel<'a>,
    pub name: &'a str,
    pub word: &'a str,
    pub is_last: bool,
}

/// A name and the word behind it, as `NAME` or `NAME=WORD`.
fn split<'a>(text: &'a str) -> (&'a str, &'a str) {
    text.split_once('=').unwrap_or((text, ""))
}

impl<'a> Call<'a> {
    /// The call that a text says, which is looked at.
    pub fn new(rt: &'a HostRuntime, kernel: Kernel<'a>, text: &'a str) -> Call<'a> {
        let (name, word) = split(text);
        Call {
            rt,
            kernel,
            name,
            word,
            is_last: true,
        }
    }

    /// A call that is made before this one.
    pub fn before(&self, text: &'a str) -> Call<'a> {
        let (name, word) = split(text);
        Call {
            rt: self.rt,
            kernel: self.kernel,
            name,
            word,
            is_last: false,
        }
    }

    /// The number that the word is; 0 where it is none.
    pub fn number(&self) -> u32 {
        self.word.parse::<u32>().unwrap_or(0)
    }

    /// Says that the call begins, and has child processes make it with each allocation failing in turn. A mark that can't be
    /// written is missed where the output is read.
    pub fn begin(&self) {
        if self.is_last {
            let _ = println!(self.rt; "== begin");
            alloc_failures_begin();
        }
    }

    /// Says that the call has ended.
    pub fn end(&self) {
        if self.is_last {
            alloc_failures_end();
            let _ = println!(self.rt; "== end");
        }
    }

    /// Says that the call has ended, and what it answered.
    pub fn tell<T: Debug + Drop>(&self, answer: T) -> io::Result<()> {
        self.end();
        say(self.rt, "answer: ", answer)
    }

    /// Says that no call has this name.
    pub fn miss(&self) -> io::Result<()> {
        say(self.rt, "no call ", self.name)
    }
}

/// Prints a value behind a text.
pub fn say<T: Debug + Drop>(rt: &HostRuntime, text: &str, value: T) -> io::Result<()> {
    println!(rt; "{text}{value:?}")
}

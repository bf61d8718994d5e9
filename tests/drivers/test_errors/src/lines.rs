//! The lines that are printed.

use ebpf_base::{Items, Text};
use std::alloc::{AllocError, Global};
use std::fmt::Display;

/// An error type, by the name under which `ebpf_object` has it.
pub trait Sample: Display + Drop {
    /// The type's path.
    const TYPE: &'static str;

    /// The name of the variant, by a `match` of all of them.
    fn variant(&self) -> &'static str;
}

/// Lines, and whether all are there: memory may be refused.
#[derive(Drop)]
pub struct Lines {
    alloc: Global,
    text: String,
    is_whole: bool,
}

/// Appends a line.
fn put_line<E: Display>(
    text: &mut String,
    path: &str,
    variant: &str,
    error: &E,
) -> Result<(), AllocError> {
    writeln!(text, "{path}::{variant}: {error}")
}

impl Lines {
    /// No lines yet.
    pub fn new(alloc: Global) -> Lines {
        Lines {
            alloc,
            text: String::new(alloc),
            is_whole: true,
        }
    }

    /// What takes memory for an error.
    pub fn alloc(&self) -> Global {
        self.alloc
    }

    /// Notes whether a step found memory.
    pub fn has_memory(&mut self, step: Result<(), AllocError>) {
        if step.is_err() {
            self.is_whole = false;
        }
    }

    /// Adds an error's line.
    pub fn show<E: Sample>(&mut self, error: E) {
        let variant = error.variant();
        let step = put_line(&mut self.text, E::TYPE, variant, &error);
        self.has_memory(step);
    }

    /// A text for an error.
    pub fn text(&mut self, words: &str) -> Text {
        match Text::from_str(self.alloc, words) {
            Ok(text) => text,
            Err(_) => {
                self.is_whole = false;
                Text::empty(self.alloc)
            }
        }
    }

    /// Bytes for an error.
    pub fn bytes(&mut self, bytes: &[u8]) -> Items<u8> {
        match Vec::from_slice(self.alloc, bytes) {
            Ok(bytes) => Items::from_vec(bytes),
            Err(_) => {
                self.is_whole = false;
                Items::new(self.alloc)
            }
        }
    }

    /// The lines, where memory sufficed for all.
    pub fn whole(&self) -> Result<&str, AllocError> {
        if self.is_whole {
            return Ok(self.text.as_str());
        }
        Err(AllocError)
    }
}

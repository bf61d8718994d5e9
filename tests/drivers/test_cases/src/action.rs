//! What is to be done with the files of a case.

use std::alloc::{AllocError, Global};
use std::ops::Range;

/// An action: whether its file is read broadly, its name, and the words behind it.
#[derive(Drop)]
pub struct Action<'a> {
    pub is_broad: bool,
    pub name: &'a str,
    pub words: Vec<&'a str>,
}

impl<'a> Action<'a> {
    /// The action of a text; between words stands one space. `broadly` before it says how its file is read.
    pub fn read(alloc: Global, text: &'a str) -> Result<Action<'a>, AllocError> {
        let lenient = text.strip_prefix("broadly ");
        let mut name = lenient.unwrap_or(text);
        let mut words = Vec::new(alloc);
        if let Some((first, rest)) = name.split_once(' ') {
            name = first;
            for word in rest.split(' ') {
                words.push(word)?;
            }
        }
        Ok(Action {
            is_broad: lenient.is_some(),
            name,
            words,
        })
    }

    /// The word of a number, from 0 on; the empty one where there are not so many.
    pub fn word(&self, at: usize) -> &'a str {
        match self.words.get(at) {
            Some(word) => word,
            None => "",
        }
    }

    /// The numbers from the first word's up to the second's; none, where these are no numbers.
    pub fn range(&self) -> Range<usize> {
        let from = self.word(0).parse::<usize>().unwrap_or(0);
        from..self.word(1).parse::<usize>().unwrap_or(0)
    }

    /// The number that a word is, if it has 32 bits.
    pub fn small_number(&self, at: usize) -> Option<u32> {
        self.word(at).parse::<u32>().ok()
    }
}

/// The outcome of what is no action.
pub fn no_action(alloc: Global) -> Result<String, AllocError> {
    String::from_str(alloc, "no such action")
}

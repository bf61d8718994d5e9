//! The words of the command line.

/// The files that an object is prepared from, and how often.
#[derive(Clone, Copy)]
pub struct Sources<'a> {
    /// The object's file.
    pub file: &'a str,
    /// The file with the kernel's types.
    pub btf: Option<&'a str>,
    /// The file with the kernel's symbols.
    pub kallsyms: Option<&'a str>,
    /// How often.
    pub runs: u32,
}

/// What is measured.
#[derive(Clone, Copy)]
pub enum Task<'a> {
    /// The type information in a file, or with `--generated` some of a kernel's size.
    Types(&'a str),
    /// Preparing an object.
    Prepare(Sources<'a>),
}

/// The word behind an option.
fn word_behind<'a>(words: &'a [String], option: &str) -> Option<&'a str> {
    let at = words.iter().position(|word| word.as_str() == option)?;
    match words.get(at..) {
        Some([_, word, ..]) => Some(word.as_str()),
        _ => None,
    }
}

/// Whether words are options, each with a word behind it.
fn are_options(words: &[String]) -> bool {
    words.chunks(2).all(|pair| match pair {
        [option, _] => matches!(option.as_str(), "--btf" | "--kallsyms" | "--runs"),
        _ => false,
    })
}

/// What preparing the file is asked for by the words behind it.
fn read_sources<'a>(file: &'a str, words: &'a [String]) -> Option<Sources<'a>> {
    if !are_options(words) {
        return None;
    }
    Some(Sources {
        file,
        btf: word_behind(words, "--btf"),
        kallsyms: word_behind(words, "--kallsyms"),
        runs: word_behind(words, "--runs").unwrap_or("9").parse().ok()?,
    })
}

/// What the words after the program's own name ask for.
pub fn read_words<'a>(words: &'a [String]) -> Option<Task<'a>> {
    match words {
        [file] => Some(Task::Types(file.as_str())),
        [verb, file] if verb.as_str() == "types" => Some(Task::Types(file.as_str())),
        [verb, file, rest @ ..] if verb.as_str() == "prepare" => {
            Some(Task::Prepare(read_sources(file.as_str(), rest)?))
        }
        _ => None,
    }
}

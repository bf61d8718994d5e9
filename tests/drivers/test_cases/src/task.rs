//! What a line of cases asks for.

use crate::files::{Files, Rise};
use std::alloc::AllocError;

/// What is left to do for a line, once the files have taken what it says of them.
#[derive(Clone, Copy)]
pub enum Task<'a> {
    /// Nothing.
    Nothing,
    /// A case of this name begins.
    Case(&'a str),
    /// An action, with its words.
    Action(&'a str),
    /// The line is no line of a case.
    Unknown,
}

/// The task of a line that says bytes or not.
fn of_bytes<'a>(taken: bool) -> Task<'a> {
    if taken { Task::Nothing } else { Task::Unknown }
}

/// The number that a word is.
fn number(word: Option<&str>) -> Option<u64> {
    word?.parse::<u64>().ok()
}

/// Takes a number of times and digits.
fn take_times<'a>(files: &mut Files, rest: &str) -> Result<Task<'a>, AllocError> {
    let mut words = rest.split(' ');
    let (Some(times), Some(digits)) = (number(words.next()), words.next()) else {
        return Ok(Task::Unknown);
    };
    let rise = Rise {
        times,
        place: 0,
        step: 0,
    };
    Ok(of_bytes(files.append(digits, rise)?))
}

/// Takes a number of times, a place, how much the number there grows, and digits.
fn take_rising<'a>(files: &mut Files, rest: &str) -> Result<Task<'a>, AllocError> {
    let mut words = rest.split(' ');
    let (times, place, step) = (
        number(words.next()),
        number(words.next()),
        number(words.next()),
    );
    let (Some(times), Some(place), Some(step), Some(digits)) = (times, place, step, words.next())
    else {
        return Ok(Task::Unknown);
    };
    let rise = Rise {
        times,
        place: place as usize,
        step,
    };
    Ok(of_bytes(files.append(digits, rise)?))
}

/// Takes digits.
fn take_digits<'a>(files: &mut Files, digits: &str) -> Result<Task<'a>, AllocError> {
    let rise = Rise {
        times: 1,
        place: 0,
        step: 0,
    };
    Ok(of_bytes(files.append(digits, rise)?))
}

impl<'a> Task<'a> {
    /// Takes a line.
    pub fn take(files: &mut Files, line: &'a str) -> Result<Task<'a>, AllocError> {
        let (word, rest) = line.split_once(' ').unwrap_or((line, ""));
        match word {
            "" => Ok(Task::Nothing),
            "case" => {
                files.clear();
                Ok(Task::Case(rest))
            }
            "file" => {
                files.start(rest)?;
                Ok(Task::Nothing)
            }
            "hex" => take_digits(files, rest),
            "times" => take_times(files, rest),
            "rising" => take_rising(files, rest),
            "do" => Ok(Task::Action(rest)),
            _ if word.starts_with('#') => Ok(Task::Nothing),
            _ => Ok(Task::Unknown),
        }
    }
}

//! What calls are made on, one after the other.

use std::fmt::Debug;
use std::io;
use test_bare_calls::{Asker, Listener};
use test_marked_calls::{Call, say};

/// What can be printed.
pub trait Shown {
    /// Prints all that it holds, behind a text.
    fn show(&self, rt: &HostRuntime, text: &str) -> io::Result<()>;
}

/// What calls are made on.
pub trait Subject: Shown {
    /// Makes a call.
    fn make(&mut self, call: &Call<'_>) -> io::Result<()>;
}

/// Makes a call, and prints the subject before and behind it.
fn look_at<T: Subject>(subject: &mut T, call: &Call<'_>) -> io::Result<()> {
    subject.show(call.rt, "before:\n")?;
    subject.make(call)?;
    subject.show(call.rt, "after:\n")
}

/// Calls that are made one after the other, and what is said where there is nothing to make them on.
#[derive(Clone, Copy)]
pub struct Calls<'a> {
    pub front: &'a [String],
    pub last: Call<'a>,
    pub refusal: &'static str,
}

/// Makes the calls, and prints the subject before the last one and behind it.
fn make_calls<T: Subject>(subject: &mut T, calls: Calls<'_>) -> io::Result<()> {
    for text in calls.front {
        subject.make(&calls.last.before(text.as_str()))?;
    }
    look_at(subject, &calls.last)
}

impl<'a, T: Subject> Asker<T> for Calls<'a> {
    type Answer = io::Result<()>;

    fn asks(self, subject: &mut T) -> io::Result<()> {
        make_calls(subject, self)
    }

    fn hears<E: Debug>(self, error: &E) -> io::Result<()> {
        say(self.last.rt, self.refusal, error)
    }
}

/// A call that makes what can be printed, between its marks.
#[derive(Clone, Copy)]
pub struct Making<'a>(pub Call<'a>);

impl<'a, T: Shown> Asker<T> for Making<'a> {
    type Answer = io::Result<()>;

    fn asks(self, made: &mut T) -> io::Result<()> {
        self.0.end();
        made.show(self.0.rt, "answer: Ok ")
    }

    fn hears<E: Debug>(self, error: &E) -> io::Result<()> {
        self.0.tell(Err::<(), &E>(error))
    }
}

/// A call between its marks.
#[derive(Clone, Copy)]
pub struct Marked<'a>(pub Call<'a>);

impl<'a> Listener for Marked<'a> {
    type Told = io::Result<()>;

    fn begins(&self) {
        self.0.begin();
    }

    fn hears<T: Debug, E: Debug>(&self, answer: &Result<T, E>) -> io::Result<()> {
        self.0.tell(answer)
    }
}

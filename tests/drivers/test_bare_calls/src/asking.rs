//! Who is lent what was made, and who hears what a call answers.

use std::fmt::Debug;

/// Who asks what was made, or is told why nothing was.
pub trait Asker<T> {
    /// What comes of it.
    type Answer;

    /// Asks what was made.
    fn asks(self, made: &mut T) -> Self::Answer
    where
        Self: Sized;

    /// Is told why nothing was made.
    fn hears<E: Debug>(self, error: &E) -> Self::Answer
    where
        Self: Sized;
}

/// Lends what was made to who asks it, or tells why nothing was. It knows neither type, so that its proof doesn't let go of
/// each part of an object.
pub fn ask<T: Drop, E: Debug + Drop, A: Asker<T>>(asker: A, made: Result<T, E>) -> A::Answer {
    match made {
        Ok(mut made) => asker.asks(&mut made),
        Err(error) => asker.hears(&error),
    }
}

/// Who hears what a call answers.
pub trait Listener {
    /// What comes of it.
    type Told;

    /// Is told that the call begins.
    fn begins(&self) {}

    /// Is told what the call answered.
    fn hears<T: Debug, E: Debug>(&self, answer: &Result<T, E>) -> Self::Told;
}

/// Tells an answer, and lets go of it.
pub fn tell<L: Listener, T: Debug + Drop, E: Debug + Drop>(
    listener: &L,
    answer: Result<T, E>,
) -> L::Told {
    listener.hears(&answer)
}

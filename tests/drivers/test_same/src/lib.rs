//! What tests compare: a test that says what differs at each comparison is proved for each way in which it may end.
#![tactic(auto)]

use std::alloc::Global;
use std::fmt::Debug;
use std::test::Fail;

/// Fails where a text isn't the wanted one.
pub fn same(got: &str, want: &str) -> Result<(), Fail> {
    if got == want {
        return Ok(());
    }
    Err(Fail::new(format_args!("{got} is not {want}")))
}

/// Fails where a value isn't the wanted one, as `{:?}` writes it.
pub fn shows<T: Debug>(alloc: Global, got: &T, want: &str) -> Result<(), Fail> {
    let text = format!(in alloc; "{got:?}")?;
    same(text.as_str(), want)
}

/// Fails where bytes aren't the wanted ones.
pub fn same_bytes(got: &[u8], want: &[u8]) -> Result<(), Fail> {
    if got == want {
        return Ok(());
    }
    Err(Fail::new(format_args!("{got:?} is not {want:?}")))
}

/// Fails where a number isn't the wanted one.
pub fn same_number(got: u64, want: u64) -> Result<(), Fail> {
    if got == want {
        return Ok(());
    }
    Err(Fail::new(format_args!("{got} is not {want}")))
}

/// Fails where what may be known isn't as wanted.
pub fn same_answer(got: Option<bool>, want: Option<bool>) -> Result<(), Fail> {
    if got == want {
        return Ok(());
    }
    Err(Fail::new(format_args!("{got:?} is not {want:?}")))
}

/// Fails where a text that may be there isn't as wanted.
pub fn same_text(got: Option<&str>, want: Option<&str>) -> Result<(), Fail> {
    if got == want {
        return Ok(());
    }
    Err(Fail::new(format_args!("{got:?} is not {want:?}")))
}

/// Fails where a fact doesn't hold.
pub fn holds(fact: bool, name: &str) -> Result<(), Fail> {
    if fact {
        return Ok(());
    }
    Err(Fail::new(format_args!("not so: {name}")))
}

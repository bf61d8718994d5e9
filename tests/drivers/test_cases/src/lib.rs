//! Cases of tests as text: files by name, in hexadecimal digits, and what is to be done with them; and what the programs
//! that run them share. Nothing is promised of it but that it is safe.
//!
//! A case is lines. A line that is empty or that begins with `#` says nothing.
//!
//! ```text
//! case NAME                      a new case, without files
//! file NAME                      a new file of the case, without bytes
//! hex DIGITS                     appends the bytes to the file
//! times N DIGITS                 appends them so many times
//! rising N PLACE STEP DIGITS     the same, where from one time to the next the little endian number of eight bytes at
//!                                a place among them grows by a step
//! do NAME WORD..                 an action on the files
//! ```
#![tactic(auto)]

mod action;
mod answers;
mod failing_reader;
mod files;
mod run;
mod tally;
mod task;

pub use action::{Action, no_action};
pub use answers::{beside_copy, shown, shown_line, value_or_error};
pub use failing_reader::FailingReader;
pub use files::{Files, Rise, changed, front, put_hex};
pub use run::{Outcomes, run_cases};
pub use tally::{Tally, tally_each};

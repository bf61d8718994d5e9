//! Rows on type information: reads cases of files, and prints what each of their actions gives.
#![tactic(auto)]

mod added;
mod answers;
mod candidates;
mod changes;
mod ext;
mod fits;
mod outcomes;
mod types;

use crate::outcomes::TypeOutcomes;
use std::io;
use test_cases::run_cases;

fn main(rt: HostRuntime) -> io::Result<()> {
    run_cases(&rt, &TypeOutcomes)
}

//! Rows over all crates: reads cases of files, and prints what each of their actions gives.
#![tactic(auto)]

mod changes;
mod objects;
mod outcomes;
mod passes;
mod patched;
mod prepared;
mod printed;
mod resolved;
mod symbols;
mod tables;

use crate::outcomes::ObjectOutcomes;
use std::io;
use test_cases::run_cases;

fn main(rt: HostRuntime) -> io::Result<()> {
    run_cases(&rt, &ObjectOutcomes)
}

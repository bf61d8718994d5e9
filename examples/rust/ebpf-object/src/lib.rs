//! eBPF object files made ready to load: opened, relocated to a kernel's types (CO-RE), with the descriptors of maps, and
//! linked. Safe types over the C interface of ebpf-object, a proved library.
//!
//! This crate prepares and does not load: the caller makes maps and loads programs by bpf(2). `examples/load` does, from a
//! file to a program that has run.
//!
//! # States
//!
//! | Type | What may be done |
//! |---|---|
//! | [`Object`] | values and sizes are set, link maps, outcomes and verdicts are asked |
//! | [`Steps`] | passes are made one by one, each at most once and in order |
//! | [`Prepared`] | programs are read as `BPF_PROG_LOAD` takes them |
//! | [`Types`] | a kernel's types, read once: the calls `_with` take them in place of bytes |
//!
//! [`Object::prepare`] leads from the first to the last in one call. What each of them has is read by [`Contents`].
//!
//! # Threads
//!
//! An object may move to another thread, and is used on one at a time: it is `Send` and not `Sync`. All that is read of it,
//! and errors, are both.
//!
//! # Examples
//!
//! ```
//! use ebpf_object::{Kernel, Object, OpenOptions};
//!
//! # fn main() -> Result<(), Box<dyn std::error::Error>> {
//! let object = Object::open(&std::fs::read("tests/data/call.o")?, OpenOptions::lenient())?;
//! for program in object.programs()? {
//!     println!("{} is of type {} and has {} slots", program.name, program.program_type, program.slots);
//! }
//! // an object without maps and externs needs neither descriptors nor a kernel
//! let prepared = object.prepare::<&str>(&Kernel::none(), &[])?;
//! assert_eq!(prepared.slots("p")?.len(), 3);
//! # Ok(())
//! # }
//! ```
mod call;
mod code;
mod contents;
mod error;
mod kernel;
mod kinds;
mod object;
mod outcomes;
mod prepared;
mod rows;
mod steps;
mod struct_ops;
mod verdict;

pub use code::{FuncInfo, Insn, LineInfo};
pub use contents::Contents;
pub use ebpf_sys as sys;
pub use error::{Details, Error, Failed, Refusal};
pub use kernel::{attach_target, attach_target_with, library_version, AttachTarget, Kernel, Types};
pub use kinds::{Absence, KconfigKind, ProgramKind, ReasonKind, SectionKind};
pub use object::{Object, OpenOptions, PrepareFailed, Setting};
pub use outcomes::{Outcome, OutcomeResult, OutcomeSlot};
pub use prepared::Prepared;
pub use rows::{
    CodeCopy, CodeReference, Extern, Info, InitialSlot, KconfigExtern, Map, MapShape, MapSlot, Program, Section,
    Variable,
};
pub use steps::{ExternsRelocated, ExternsResolved, MapsRelocated, Opened, Steps, TypesRelocated};
pub use struct_ops::{StructOpsMap, StructOpsProgram};
pub use verdict::{Reason, ReasonSlot, Verdict};

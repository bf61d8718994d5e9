//! How long type information takes to be read, to be indexed and to be asked; and what measuring shares. Nothing is promised of
//! it but that it is safe.
#![tactic(auto)]

mod clock;
mod error;
mod files;
mod found;
mod many_types;
mod types;

pub use error::BenchError;
pub use files::read_bytes;
pub use types::measure_types;

//! Why nothing was measured.

use ebpf_btf::BtfError;
use std::alloc::{AllocError, AllocFailed};
use std::io;
use thiserror::Error;

/// Why nothing was measured.
#[derive(Debug, Drop, Error)]
pub enum BenchError {
    #[error("{0}")]
    Io(#[from] io::Error),
    #[error("{0}")]
    Types(#[from] BtfError),
    #[error("the object is refused: ebpf-link says why")]
    Refused,
    #[error("a phase was not noted")]
    Clock,
    #[error("out of memory")]
    Memory(#[from] AllocError),
}

impl<T: Drop> From<AllocFailed<T>> for BenchError {
    fn from(_failed: AllocFailed<T>) -> BenchError {
        BenchError::Memory(AllocError)
    }
}

//! An object after its passes.
use crate::contents::Contents;
use crate::error::Error;
use std::ops::Deref;

/// An object after its passes: its programs are as `BPF_PROG_LOAD` takes them.
///
/// Its getters are those of [`Contents`]. No pass can be made any more, and nothing can be set:
///
/// ```compile_fail,E0599
/// fn again(prepared: ebpf_object::Prepared) {
///     prepared.prepare(&ebpf_object::Kernel::none(), &[("counts", 5)]);
/// }
/// ```
///
/// ```compile_fail,E0599
/// fn set(mut prepared: ebpf_object::Prepared) {
///     prepared.set_max_entries("counts", 1);
/// }
/// ```
#[derive(Debug)]
pub struct Prepared {
    contents: Contents,
}

impl Deref for Prepared {
    type Target = Contents;

    fn deref(&self) -> &Contents {
        &self.contents
    }
}

impl Prepared {
    pub(crate) fn of(contents: Contents) -> Prepared {
        Prepared { contents }
    }

    /// A copy.
    ///
    /// # Errors
    ///
    /// - [`Error::OutOfMemory`].
    pub fn try_clone(&self) -> Result<Prepared, Error> {
        self.contents.copy().map(Prepared::of)
    }
}

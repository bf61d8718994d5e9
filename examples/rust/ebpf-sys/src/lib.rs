//! The C interface of ebpf-object as Rust has it: all numbers, structs and calls of `ebpf.h`. The crate `ebpf-object` has
//! safe types over it.
//!
//! # The library
//!
//! `build.rs` finds `libebpf.a` or `libebpf.so` (README.md). Both need the C library alone, on x86-64 Linux.
//! [`ebpf_version_number`] returns the version of the library, [`EBPF_VERSION_NUMBER`] is that of these declarations.
//!
//! # Safety
//!
//! No call checks what the head of `ebpf.h` asks of a caller:
//!
//! - A count is no greater than what lies behind its pointer, and each pointer is aligned for its type.
//! - What a call may write overlaps nothing else that the call is given. No other thread touches it during the call. What
//!   is const does not change during the call.
//! - A handle is what [`ebpf_open`], [`ebpf_prepare`] or [`ebpf_clone`] gave. It may move from thread to thread, and one
//!   call at a time uses it, also where it is const. [`ebpf_close`] frees it, once.
//! - The same holds for the types that [`ebpf_btf_open`] gave, which [`ebpf_btf_close`] frees.
//! - What a handle keeps for its caller is gone once a call that takes the handle without const has returned.
//! - No call is made from a signal handler, nor in the child that a process with threads forked.
//!
//! A null array is empty, a null handle and null types are closed ones ([`EBPF_CLOSED`]), and a null count or row is not
//! written. Only where a handle or types are given out the pointer is not null.
//!
//! # Examples
//!
//! ```
//! use ebpf_sys::*;
//! use std::ptr;
//!
//! let file = b"no object";
//! let mut handle = ptr::null_mut();
//! let options = ebpf_open_options::default();
//! // SAFETY: the file has so many bytes, the handle's place is written alone, and the handle is freed once.
//! unsafe {
//!     let number = ebpf_open(file.as_ptr(), file.len(), &options, &mut handle);
//!     assert_eq!((number, (*ebpf_last_error(handle)).number), (EBPF_PARSE_TOO_SHORT, EBPF_PARSE_TOO_SHORT));
//!     ebpf_close(handle);
//! }
//! ```
#![allow(non_camel_case_types)]

#[rustfmt::skip]
mod calls;
#[rustfmt::skip]
mod numbers;
#[rustfmt::skip]
mod structs;

pub use calls::*;
pub use numbers::*;
pub use structs::*;

use std::mem::size_of;
use std::ptr;

/// Returns 0 if the library has the version of these declarations, else [`EBPF_OTHER_VERSION`]. The last part may be
/// greater. Call it once.
pub fn ebpf_check_version() -> u32 {
    // SAFETY: the call is given nothing.
    let of_library = unsafe { ebpf_version_number() };
    if of_library / 1_000 != EBPF_VERSION_NUMBER / 1_000 || of_library < EBPF_VERSION_NUMBER {
        return EBPF_OTHER_VERSION;
    }
    EBPF_DONE
}

/// `ebpf_open_defaults` of the header: lenient parsing without a limit.
impl Default for ebpf_open_options {
    fn default() -> ebpf_open_options {
        ebpf_open_options { size: size_of::<ebpf_open_options>(), max_bytes: 0, parsing: EBPF_LENIENT, reserved: 0 }
    }
}

/// `ebpf_prepare_defaults` of the header: no inputs.
impl Default for ebpf_prepare_inputs {
    fn default() -> ebpf_prepare_inputs {
        ebpf_prepare_inputs {
            size: size_of::<ebpf_prepare_inputs>(),
            types: ptr::null(),
            types_len: 0,
            descriptors: ptr::null(),
            descriptors_len: 0,
            symbols: ptr::null(),
            symbols_len: 0,
            btf: ptr::null(),
        }
    }
}

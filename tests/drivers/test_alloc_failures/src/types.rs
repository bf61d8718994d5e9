//! Calls on types, one after the other.

use crate::subject::{Calls, Shown, Subject};
use ebpf_btf::{Btf, Endianness};
use std::io;
use test_bare_calls::on_types;
use test_marked_calls::{Call, on_types as call_types, say};

impl Shown for Btf {
    fn show(&self, rt: &HostRuntime, text: &str) -> io::Result<()> {
        say(rt, text, self)
    }
}

impl Subject for Btf {
    fn make(&mut self, call: &Call<'_>) -> io::Result<()> {
        call_types(self, call)
    }
}

/// Makes the calls on the types that the bytes are.
pub fn on_parsed_types<'a>(bytes: &[u8], front: &'a [String], last: &Call<'a>) -> io::Result<()> {
    let calls = Calls {
        front,
        last: *last,
        refusal: "no types: ",
    };
    on_types(last.rt.alloc(), bytes, Endianness::Little, calls)
}

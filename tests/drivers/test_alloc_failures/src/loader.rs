//! Calls that a loader makes beside those for slots.

use ebpf_base::{ByName, Endianness, Items};
use ebpf_chosen_programs::leave_out;
use ebpf_initial_slots::initial_slots;
use ebpf_kconfig::{KconfigExtern, define_kconfig, kconfig, kconfig_number, kconfig_value};
use ebpf_btf_load::kernel_types;
use ebpf_object::Object;
use std::alloc::AllocError;
use std::io;
use test_marked_calls::{Call, say};

/// The version 6.12, as externs have it.
const VERSION: u64 = 0x6_0c00;

/// The types of a file as the kernel takes them.
pub fn types_for_kernel(bytes: &[u8], call: &Call<'_>) -> io::Result<()> {
    call.begin();
    call.tell(kernel_types(call.rt.alloc(), bytes))
}

/// The kernel's lines as the value of the extern that the word names.
fn values_by_word(call: &Call<'_>) -> Result<ByName<Items<u8>>, AllocError> {
    let alloc = call.rt.alloc();
    let mut values = ByName::new(alloc);
    let value = Items::from_vec(Vec::from_slice(alloc, call.kernel.lines)?);
    values.insert(String::from_str(alloc, call.word)?, value)?;
    Ok(values)
}

/// Defines the externs of the configuration by these values.
fn define(object: &mut Object, values: &ByName<Items<u8>>, call: &Call<'_>) -> io::Result<()> {
    call.begin();
    call.tell(define_kconfig(object, values))
}

/// Defines the externs of the configuration, one of them with a value.
fn define_by_word(object: &mut Object, call: &Call<'_>) -> io::Result<()> {
    match values_by_word(call) {
        Ok(values) => define(object, &values, call),
        Err(error) => say(call.rt, "no values: ", error),
    }
}

/// The value of an extern by the kernel's lines, or by a version.
fn value(wanted: &KconfigExtern, order: Endianness, call: &Call<'_>) -> io::Result<()> {
    let alloc = call.rt.alloc();
    call.begin();
    match call.name {
        "loader_value" => call.tell(kconfig_value(alloc, call.kernel.lines, wanted, order)),
        _ => call.tell(kconfig_number(alloc, VERSION, wanted, order)),
    }
}

/// The value of the extern that the word names.
fn value_in(externs: &[KconfigExtern], order: Endianness, call: &Call<'_>) -> io::Result<()> {
    for wanted in externs {
        if wanted.name.as_str() == call.word {
            return value(wanted, order, call);
        }
    }
    say(call.rt, "no extern ", call.word)
}

/// The value of the object's extern that the word names.
fn value_by_word(object: &Object, call: &Call<'_>) -> io::Result<()> {
    match kconfig(object) {
        Ok(externs) => value_in(externs.as_slice(), object.endianness, call),
        Err(error) => say(call.rt, "no externs: ", error),
    }
}

/// A question to an object. Its file is the kernel's lines.
fn ask(object: &Object, call: &Call<'_>) -> io::Result<()> {
    call.begin();
    match call.name {
        "loader_kconfig" => call.tell(kconfig(object)),
        "loader_slots" => call.tell(initial_slots(call.rt.alloc(), call.kernel.lines, object)),
        _ => call.miss(),
    }
}

/// Leaves out the program that the word names.
fn leave_out_word(object: &mut Object, call: &Call<'_>) -> io::Result<()> {
    call.begin();
    call.tell(leave_out(call.rt.alloc(), object, &[call.word]))
}

/// A call on an object.
pub fn on_loader(object: &mut Object, call: &Call<'_>) -> io::Result<()> {
    match call.name {
        "loader_define" => define_by_word(object, call),
        "loader_leave_out" => leave_out_word(object, call),
        "loader_value" | "loader_number" => value_by_word(object, call),
        _ => ask(object, call),
    }
}

//! The slots of functions.

use ebpf_base::{ByKey, ByName};
use ebpf_model::{Function, Program};
use ebpf_parts::insn::bpf_insn;
use std::alloc::{AllocError, Global};
use test_cases::Tally;

/// Appends bytes, with a space before each but the text's first.
fn put_bytes(text: &mut String, bytes: &[u8]) -> Result<(), AllocError> {
    for byte in bytes {
        if !text.is_empty() {
            text.push(' ')?;
        }
        write!(text, "{byte:02x}")?;
    }
    Ok(())
}

/// The eight bytes of a slot.
pub fn slot_text(alloc: Global, slot: &bpf_insn) -> Result<String, AllocError> {
    let mut text = String::new(alloc);
    put_bytes(&mut text, &slot.to_bytes())?;
    Ok(text)
}

/// The slots of functions, by their keys.
fn put_all_slots(
    alloc: Global,
    text: &mut String,
    functions: &ByKey<Function>,
) -> Result<(), AllocError> {
    let mut is_first = true;
    for (_, function) in functions.iter() {
        for slot in function.instructions.iter() {
            if !is_first {
                text.push(',')?;
            }
            let slot = slot_text(alloc, slot)?;
            write!(text, " {slot}")?;
            is_first = false;
        }
    }
    Ok(())
}

/// What a pass answers, and the slots of all functions then.
pub fn with_slots(
    alloc: Global,
    mut answer: String,
    functions: &ByKey<Function>,
) -> Result<String, AllocError> {
    put_all_slots(alloc, &mut answer, functions)?;
    Ok(answer)
}

/// The immediates of all slots.
pub fn put_immediates(text: &mut String, functions: &ByKey<Function>) -> Result<(), AllocError> {
    for (_, function) in functions.iter() {
        for slot in function.instructions.iter() {
            let imm = slot.imm;
            write!(text, "{imm} ")?;
        }
    }
    Ok(())
}

/// A line for each slot of a function.
fn put_each_slot(alloc: Global, text: &mut String, function: &Function) -> Result<(), AllocError> {
    for slot in function.instructions.iter() {
        let slot = slot_text(alloc, slot)?;
        writeln!(text, "{slot}")?;
    }
    Ok(())
}

/// A line for each different slot of a function, with how many such it has.
fn put_slot_counts(
    alloc: Global,
    text: &mut String,
    function: &Function,
) -> Result<(), AllocError> {
    let mut tally = Tally::new(alloc);
    for slot in function.instructions.iter() {
        let slot = slot_text(alloc, slot)?;
        tally.count(slot.as_str())?;
    }
    let counts = tally.text()?;
    write!(text, "{counts}")
}

/// A line for a program, and lines for its slots.
fn put_program(
    alloc: Global,
    text: &mut String,
    name: &str,
    function: &Function,
    counted: bool,
) -> Result<(), AllocError> {
    let slots = function.instructions.len();
    writeln!(text, "program {name} slots {slots}")?;
    if counted {
        put_slot_counts(alloc, text, function)
    } else {
        put_each_slot(alloc, text, function)
    }
}

/// A line for each program, in byte order of their names, and lines for its slots.
pub fn put_slots(
    alloc: Global,
    text: &mut String,
    programs: &ByName<Program>,
    functions: &ByKey<Function>,
    counted: bool,
) -> Result<(), AllocError> {
    for name in programs.names(alloc)? {
        if let Some(program) = programs.get(name)
            && let Some(function) = functions.get(program.function_key())
        {
            put_program(alloc, text, name, function, counted)?;
        }
    }
    Ok(())
}

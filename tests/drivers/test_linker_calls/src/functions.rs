//! Functions and references for tests.

use ebpf_linker::link_map::NumberedLinkMap;
use ebpf_linker::{Body, Fault, Functions, LinkedProgram, Reference, Tables, Target, is_sound};
use ebpf_parts::insn::{bpf_insn, opcodes};
use std::alloc::{AllocError, Global};

pub const NOTHING: bpf_insn = bpf_insn {
    code: 0,
    regs: 0,
    off: 0,
    imm: 0,
};

pub const CALL: bpf_insn = bpf_insn {
    code: opcodes::CALL,
    regs: 0x10,
    imm: -1,
    ..NOTHING
};

pub const EXIT: bpf_insn = bpf_insn {
    code: opcodes::EXIT,
    ..NOTHING
};

pub const LOAD: bpf_insn = bpf_insn {
    code: opcodes::LD_IMM64,
    regs: 0x01,
    imm: 8,
    ..NOTHING
};

pub const CALLS: [bpf_insn; 2] = [CALL, EXIT];

pub const CALLS_TWICE: [bpf_insn; 3] = [CALL, CALL, EXIT];

pub const ENDS: [bpf_insn; 1] = [EXIT];

/// A reference from a slot of a function to a function.
pub type TestReference = (usize, usize, Target);

/// The slots of a function.
pub type TestSlots<'a> = &'a [bpf_insn];

/// The functions that programs, which are the first, refer to.
pub const PROGRAM: Target = Target::Function(0);

pub const F: Target = Target::Function(1);

pub const G: Target = Target::Function(2);

pub const H: Target = Target::Function(3);

/// A fault in the place of a function.
pub const FAULT: Target = Target::Nowhere(Fault::UnsupportedTextSymbol { index: 5 });

/// Functions with their references, and what the first of them gives.
pub type Case = (
    &'static [TestSlots<'static>],
    &'static [TestReference],
    &'static str,
);

/// A linked program, or the fault; none where the references are not sound.
pub type Answer = Option<Result<LinkedProgram, Fault>>;

/// What a linked program is made of, or the fault; none where the references are not sound.
pub type MapAnswer = Option<Result<NumberedLinkMap, Fault>>;

/// A function without records.
pub fn plain(slots: &[bpf_insn]) -> Body<'_> {
    Body {
        slots,
        func_info: &[],
        line_info: &[],
    }
}

/// Functions without records.
pub fn plain_bodies<'a>(
    alloc: Global,
    slots: &[TestSlots<'a>],
) -> Result<Vec<Body<'a>>, AllocError> {
    let mut bodies = Vec::new(alloc);
    for slots in slots {
        bodies.push(plain(*slots))?;
    }
    Ok(bodies)
}

/// The references of a function, in the order in which they are given.
fn list_of(
    alloc: Global,
    function: usize,
    references: &[TestReference],
) -> Result<Vec<Reference>, AllocError> {
    let mut list = Vec::new(alloc);
    for (from, slot, target) in references {
        if *from == function {
            let (slot, target) = (*slot, *target);
            list.push(Reference { slot, target })?;
        }
    }
    Ok(list)
}

/// The references of so many functions.
pub fn lists(
    alloc: Global,
    count: usize,
    references: &[TestReference],
) -> Result<Vec<Vec<Reference>>, AllocError> {
    let mut lists = Vec::new(alloc);
    for function in 0..count {
        lists.push(list_of(alloc, function, references)?)?;
    }
    Ok(lists)
}

/// The function with a number linked.
pub fn linked_at(
    alloc: Global,
    tables: &Tables,
    bodies: &[Body<'_>],
    calls: &[Vec<Reference>],
    start: usize,
) -> Result<Answer, AllocError> {
    if start >= bodies.len() || calls.len() != bodies.len() || !is_sound(calls, bodies.len()) {
        return Ok(None);
    }
    let functions = Functions::new(bodies, calls, tables);
    match functions.lay_out(alloc, start)? {
        Ok(layout) => Ok(Some(Ok(functions.link(alloc, &layout)?))),
        Err(fault) => Ok(Some(Err(fault))),
    }
}

/// The first function linked, with tables of its own.
pub fn linked(
    alloc: Global,
    bodies: &[Body<'_>],
    calls: &[Vec<Reference>],
) -> Result<Answer, AllocError> {
    linked_at(alloc, &Tables::new(), bodies, calls, 0)
}

/// What the first function is made of, linked.
pub fn link_map_of(
    alloc: Global,
    bodies: &[Body<'_>],
    calls: &[Vec<Reference>],
) -> Result<MapAnswer, AllocError> {
    if bodies.is_empty() || calls.len() != bodies.len() || !is_sound(calls, bodies.len()) {
        return Ok(None);
    }
    let tables = Tables::new();
    let functions = Functions::new(bodies, calls, &tables);
    match functions.lay_out(alloc, 0)? {
        Ok(layout) => Ok(Some(Ok(functions.link_map(alloc, &layout)?))),
        Err(fault) => Ok(Some(Err(fault))),
    }
}

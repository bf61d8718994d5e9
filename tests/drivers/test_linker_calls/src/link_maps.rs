//! What programs are made of, beside the slots that linking writes.

use super::functions::{
    Answer, CALLS, CALLS_TWICE, Case, ENDS, EXIT, F, FAULT, G, LOAD, MapAnswer, NOTHING, PROGRAM,
    TestReference, TestSlots, link_map_of, linked, lists, plain_bodies,
};
use ebpf_linker::Body;
use ebpf_linker::link_map::NumberedLinkMap;
use ebpf_parts::insn::bpf_insn;
use std::alloc::{AllocError, Global};
use std::test::Fail;
use test_same::same;

/// The copies as function@base+slots, the references as place>base with the imm of the linked slot there, and how many slots
/// there are.
fn printed(alloc: Global, slots: &[bpf_insn], map: &NumberedLinkMap) -> Result<String, AllocError> {
    let mut text = String::new(alloc);
    for copy in map.copies.iter() {
        write!(text, "{}@{}+{} ", copy.function, copy.base, copy.slots)?;
    }
    for reference in map.references.iter() {
        let kind = if reference.is_call { "call" } else { "load" };
        let imm = slots.get(reference.place).map(|slot| slot.imm);
        write!(
            text,
            "{}>{} {kind} {imm:?} ",
            reference.place, reference.base
        )?;
    }
    write!(text, "of {}", slots.len())?;
    Ok(text)
}

/// What a function is made of, beside what linking gives; or the fault of both.
fn both(alloc: Global, program: &Answer, map: &MapAnswer) -> Result<String, AllocError> {
    match (program, map) {
        (Some(Ok(program)), Some(Ok(map))) => printed(alloc, program.slots.as_slice(), map),
        (Some(Err(fault)), Some(Err(other))) => format!(in alloc; "{fault:?} {other:?}"),
        _ => format!(in alloc; "they differ"),
    }
}

/// What the first of these functions is made of, beside what linking it gives.
fn outcome(
    alloc: Global,
    bodies: &[Body<'_>],
    references: &[TestReference],
) -> Result<String, AllocError> {
    let calls = lists(alloc, bodies.len(), references)?;
    let program = linked(alloc, bodies, &calls)?;
    let map = link_map_of(alloc, bodies, &calls)?;
    both(alloc, &program, &map)
}

/// Fails where the first of these functions isn't made of this.
fn is_made_of(
    alloc: Global,
    slots: &[TestSlots<'_>],
    references: &[TestReference],
    want: &str,
) -> Result<(), Fail> {
    let bodies = plain_bodies(alloc, slots)?;
    let text = outcome(alloc, &bodies, references)?;
    same(text.as_str(), want)
}

const CASES: [Case; 4] = [
    // A program that calls itself has a copy of its own.
    (
        &[&CALLS],
        &[(0, 0, PROGRAM)],
        "0@0+2 0@2+2 0>2 call Some(1) 2>2 call Some(-1) of 4",
    ),
    // P calls g and f, f calls g: g has one copy, before f's.
    (
        &[&CALLS_TWICE, &CALLS, &ENDS],
        &[(0, 0, G), (0, 1, F), (1, 0, G)],
        "0@0+3 2@3+1 1@4+2 0>3 call Some(2) 1>4 call Some(2) 4>3 call Some(-2) of 6",
    ),
    // A load of a function's address.
    (
        &[&[LOAD, NOTHING, EXIT], &ENDS],
        &[(0, 0, F)],
        "0@0+3 1@3+1 0>3 load Some(2) of 4",
    ),
    // A fault of a function that is called.
    (
        &[&CALLS, &CALLS],
        &[(0, 0, F), (1, 0, FAULT)],
        "UnsupportedTextSymbol { index: 5 } UnsupportedTextSymbol { index: 5 }",
    ),
];

#[test]
fn programs_are_made_of_these(rt: HostRuntime) -> Result<(), Fail> {
    for (slots, references, want) in CASES.iter() {
        is_made_of(rt.alloc(), slots, references, want)?;
    }
    Ok(())
}

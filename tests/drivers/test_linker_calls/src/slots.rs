//! Programs and functions linked, as texts.

use super::functions::{
    Answer, CALLS, CALLS_TWICE, Case, ENDS, EXIT, F, FAULT, G, H, LOAD, NOTHING, PROGRAM,
    TestReference, TestSlots, linked, linked_at, lists, plain, plain_bodies,
};
use ebpf_btf_ext::{bpf_func_info, bpf_line_info};
use ebpf_linker::{Body, Fault, LinkedProgram, Reference, Tables, Target};
use ebpf_parts::insn::bpf_insn;
use std::alloc::{AllocError, Global};
use std::test::Fail;
use test_same::same;

/// The imm and the registers of each slot, the slots of records on functions and on lines, and the counts of both.
fn add_program(text: &mut String, program: &LinkedProgram) -> Result<(), AllocError> {
    for slot in program.slots.iter() {
        write!(text, "{}/{} ", slot.imm, slot.src_reg())?;
    }
    for record in program.func_info.iter() {
        write!(text, "f{} ", record.insn_off)?;
    }
    for record in program.line_info.iter() {
        write!(text, "l{} ", record.insn_off)?;
    }
    write!(text, "{:?} {:?}", program.func_count, program.line_count)
}

/// A linked program, or the fault.
fn add_answer(text: &mut String, answer: &Answer) -> Result<(), AllocError> {
    match answer {
        Some(Ok(program)) => add_program(text, program)?,
        Some(Err(fault)) => write!(text, "{fault:?}")?,
        None => text.push_str("unsound")?,
    }
    Ok(())
}

/// The first function linked.
fn outcome(
    alloc: Global,
    bodies: &[Body<'_>],
    references: &[TestReference],
) -> Result<String, AllocError> {
    let calls = lists(alloc, bodies.len(), references)?;
    let answer = linked(alloc, bodies, &calls)?;
    let mut text = String::new(alloc);
    add_answer(&mut text, &answer)?;
    Ok(text)
}

/// Fails where the first of these functions isn't linked so.
fn links(
    alloc: Global,
    slots: &[TestSlots<'_>],
    references: &[TestReference],
    want: &str,
) -> Result<(), Fail> {
    let bodies = plain_bodies(alloc, slots)?;
    let text = outcome(alloc, &bodies, references)?;
    same(text.as_str(), want)
}

/// Each of these functions linked in turn, with the same tables.
fn outcomes(
    alloc: Global,
    tables: &Tables,
    bodies: &[Body<'_>],
    references: &[TestReference],
    starts: &[usize],
) -> Result<String, AllocError> {
    let calls = lists(alloc, bodies.len(), references)?;
    let mut text = String::new(alloc);
    for start in starts {
        let answer = linked_at(alloc, tables, bodies, &calls, *start)?;
        add_answer(&mut text, &answer)?;
        text.push_str("; ")?;
    }
    Ok(text)
}

/// Fails where these functions, linked in turn with these tables, don't give this.
fn link_in_turn(
    alloc: Global,
    tables: &Tables,
    slots: &[TestSlots<'_>],
    references: &[TestReference],
    starts: &[usize],
    want: &str,
) -> Result<(), Fail> {
    let bodies = plain_bodies(alloc, slots)?;
    let text = outcomes(alloc, tables, &bodies, references, starts)?;
    same(text.as_str(), want)
}

const CASES: [Case; 7] = [
    // A program that calls itself has a copy of its own.
    (
        &[&CALLS],
        &[(0, 0, PROGRAM)],
        "1/1 0/0 -1/1 0/0 Some(0) None",
    ),
    // P calls f and g, f calls g.
    (
        &[&CALLS_TWICE, &CALLS, &ENDS],
        &[(0, 0, F), (0, 1, G), (1, 0, G)],
        "2/1 3/1 0/0 1/1 0/0 0/0 Some(0) None",
    ),
    // P calls g and f, f calls g: g stands before f, though its number is higher.
    (
        &[&CALLS_TWICE, &CALLS, &ENDS],
        &[(0, 0, G), (0, 1, F), (1, 0, G)],
        "2/1 2/1 0/0 0/0 -2/1 0/0 Some(0) None",
    ),
    // P calls f and h, f calls g, h calls g: f, g, h.
    (
        &[&CALLS_TWICE, &CALLS, &ENDS, &CALLS],
        &[(0, 0, F), (0, 1, H), (1, 0, G), (3, 0, G)],
        "2/1 4/1 0/0 1/1 0/0 0/0 -2/1 0/0 Some(0) None",
    ),
    // A load of a function's address.
    (
        &[&[LOAD, NOTHING, EXIT], &ENDS],
        &[(0, 0, F)],
        "2/4 0/0 0/0 0/0 Some(0) None",
    ),
    // A fault in a function that is called before the slot with another.
    (
        &[&CALLS_TWICE, &CALLS],
        &[(0, 0, F), (0, 1, FAULT), (1, 0, UNKNOWN)],
        "UnknownFunction { address: 16, caller: 1 }",
    ),
    // A fault in a function that nothing calls.
    (
        &[&CALLS, &ENDS, &CALLS],
        &[(0, 0, F), (2, 0, FAULT)],
        "1/1 0/0 0/0 Some(0) None",
    ),
];

/// Another fault in the place of a function.
const UNKNOWN: Target = Target::Nowhere(Fault::UnknownFunction {
    address: 16,
    caller: 1,
});

#[test]
fn links_programs(rt: HostRuntime) -> Result<(), Fail> {
    for (slots, references, want) in CASES.iter() {
        links(rt.alloc(), slots, references, want)?;
    }
    Ok(())
}

/// A record on a function, or on a line, at a slot.
const fn func_at(insn_off: u32) -> bpf_func_info {
    bpf_func_info {
        insn_off,
        type_id: 1,
    }
}

const fn line_at(insn_off: u32) -> bpf_line_info {
    bpf_line_info {
        insn_off,
        file_name_off: 0,
        line_off: 0,
        line_col: 0,
    }
}

/// Fails where a program with records that calls a function with these doesn't give this.
fn links_records<'a>(
    alloc: Global,
    slots: &'a [bpf_insn],
    func_info: &'a [bpf_func_info],
    line_info: &'a [bpf_line_info],
    want: &str,
) -> Result<(), Fail> {
    let program = Body {
        slots: &CALLS,
        func_info: &[func_at(0)],
        line_info: &[line_at(0), line_at(1)],
    };
    let callee = Body {
        slots,
        func_info,
        line_info,
    };
    let text = outcome(alloc, &[program, callee], &[(0, 0, F)])?;
    same(text.as_str(), want)
}

#[test]
fn moves_records(rt: HostRuntime) -> Result<(), Fail> {
    let want = "1/1 0/0 0/0 f0 f2 l0 l1 l2 Some(2) Some(3)";
    links_records(rt.alloc(), &ENDS, &[func_at(1)], &[line_at(1)], want)
}

#[test]
fn refuses_records(rt: HostRuntime) -> Result<(), Fail> {
    let want = "FunctionInfoMismatch { callee: 1 }";
    links_records(rt.alloc(), &ENDS, &[], &[line_at(1)], want)?;
    let lines = [line_at(2), line_at(1)];
    let want = "InvalidLineInfo { callee: 1 }";
    links_records(rt.alloc(), &[NOTHING, EXIT], &[func_at(1)], &lines, want)
}

/// The calls of so many functions, each of the next.
fn chain_calls(alloc: Global, count: usize) -> Result<Vec<Vec<Reference>>, AllocError> {
    let mut calls = Vec::new(alloc);
    for function in 0..count {
        let target = Target::Function(function.saturating_add(1));
        calls.push(vec![in alloc; Reference { slot: 0, target }; 1]?)?;
    }
    calls.push(Vec::new(alloc))?;
    Ok(calls)
}

/// How many slots a linked program has, and how many of these have the imm 1.
fn counted(alloc: Global, answer: &Answer) -> Result<String, AllocError> {
    match answer {
        Some(Ok(program)) => {
            let slots = program.slots.as_slice();
            let ones = slots.iter().filter(|slot| slot.imm == 1).count();
            format!(in alloc; "{} {ones}", slots.len())
        }
        Some(Err(fault)) => format!(in alloc; "{fault:?}"),
        None => format!(in alloc; "unsound"),
    }
}

/// That of a chain of so many functions, each of which calls the next.
fn chain(alloc: Global, count: usize) -> Result<String, AllocError> {
    let mut bodies = vec![in alloc; plain(&CALLS); count]?;
    bodies.push(plain(&ENDS))?;
    let calls = chain_calls(alloc, count)?;
    let answer = linked(alloc, &bodies, &calls)?;
    counted(alloc, &answer)
}

#[test]
fn long_chain(rt: HostRuntime) -> Result<(), Fail> {
    let text = chain(rt.alloc(), 10000)?;
    same(text.as_str(), "20001 10000")
}

/// What one program leaves in the tables serves the next: after a fault, and over other functions.
#[test]
fn programs_share_tables(rt: HostRuntime) -> Result<(), Fail> {
    let tables = Tables::new();
    let slots: [TestSlots<'_>; 4] = [&CALLS_TWICE, &CALLS, &ENDS, &CALLS_TWICE];
    let references = [(0, 0, F), (0, 1, G), (1, 0, G), (3, 0, G), (3, 1, FAULT)];
    let want = "2/1 3/1 0/0 1/1 0/0 0/0 Some(0) None; 1/1 0/0 0/0 Some(0) None; 0/0 None None; \
        UnsupportedTextSymbol { index: 5 }; 1/1 0/0 0/0 Some(0) None; ";
    link_in_turn(
        rt.alloc(),
        &tables,
        &slots,
        &references,
        &[0, 1, 2, 3, 1],
        want,
    )?;
    let alone = [(0, 0, PROGRAM)];
    let want = "1/1 0/0 -1/1 0/0 Some(0) None; ";
    link_in_turn(rt.alloc(), &tables, &[&CALLS], &alone, &[0], want)
}

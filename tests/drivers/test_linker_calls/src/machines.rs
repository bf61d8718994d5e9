//! The separate functions and the linked program, run beside each other.

use super::functions::{
    Answer, CALL, CALLS, CALLS_TWICE, ENDS, EXIT, F, G, LOAD, NOTHING, PROGRAM, TestReference,
    TestSlots, linked, lists, plain_bodies,
};
use ebpf_linker::{Body, Reference, Target};
use ebpf_parts::insn::{bpf_insn, opcodes};
use std::alloc::{AllocError, Global};
use std::test::Fail;
use test_same::same;

/// How many steps a run has at most.
const STEPS: usize = 20;

/// What a slot does to the flow of control (RFC 9669, sections 4.3 and 5.4).
#[derive(Clone, Copy)]
enum Flow {
    Return,
    PseudoCall,
    WideLoad,
    Jump(i64),
    Branch(i64),
    Next,
}

/// The classes of jumps.
const JUMPS: [u8; 2] = [5, 6];

/// The jumps that no condition decides: always, call and exit.
const UNCONDITIONAL: [u8; 3] = [0, 8, 9];

/// Whether a code is a jump that a condition decides.
fn is_branch(code: u8) -> bool {
    JUMPS.contains(&(code % 8)) && !UNCONDITIONAL.contains(&(code / 16))
}

fn flow_of(slot: bpf_insn) -> Flow {
    match slot.code {
        opcodes::EXIT => Flow::Return,
        opcodes::CALL if slot.regs == 0x10 && slot.off == 0 => Flow::PseudoCall,
        opcodes::LD_IMM64 => Flow::WideLoad,
        opcodes::JA => Flow::Jump(i64::from(slot.off)),
        opcodes::JA32 => Flow::Jump(i64::from(slot.imm)),
        code if is_branch(code) => Flow::Branch(i64::from(slot.off)),
        _ => Flow::Next,
    }
}

/// A function and one of its slots. A linked program is one function, number 0.
type SlotPosition = (usize, i64);

/// The place so many slots further.
fn further(place: SlotPosition, by: i64) -> SlotPosition {
    (place.0, place.1.saturating_add(by))
}

/// What is run.
#[derive(Clone, Copy)]
enum Code<'a> {
    /// Functions, with their references.
    Separate(&'a [Body<'a>], &'a [Vec<Reference>]),
    /// A linked program.
    Flat(&'a [bpf_insn]),
}

/// The slot at a place of these.
fn slot_at(slots: &[bpf_insn], place: SlotPosition) -> Option<bpf_insn> {
    let number = usize::try_from(place.1).ok()?;
    slots.get(number).copied()
}

/// The first slot of the function that a slot refers to.
fn entry_of(calls: &[Vec<Reference>], place: SlotPosition) -> Option<SlotPosition> {
    let number = usize::try_from(place.1).ok()?;
    let list = calls.get(place.0)?;
    let call = list.iter().find(|call| call.slot == number)?;
    match call.target {
        Target::Function(function) => Some((function, 0)),
        Target::Nowhere(_) => None,
    }
}

impl Code<'_> {
    fn fetch(&self, place: SlotPosition) -> Option<bpf_insn> {
        match self {
            Code::Separate(bodies, _) => slot_at(bodies.get(place.0)?.slots, place),
            Code::Flat(slots) => slot_at(slots, place),
        }
    }

    /// Where the call at a place goes.
    fn entry(&self, place: SlotPosition, slot: bpf_insn) -> Option<SlotPosition> {
        match self {
            Code::Separate(_, calls) => entry_of(calls, place),
            Code::Flat(_) => Some(further(further(place, 1), i64::from(slot.imm))),
        }
    }
}

/// Why a run stands.
#[derive(Clone, Copy, Debug)]
enum Stop {
    /// It goes on.
    Going,
    Ended,
    /// There is a branch, and no decision left.
    Waiting,
    /// There is no slot at its place, or a call goes nowhere.
    Left,
}

/// A run under way: its place, those to which calls return, and the decisions to come.
#[derive(Drop)]
struct Walker<'a> {
    place: SlotPosition,
    stack: Vec<SlotPosition>,
    decisions: &'a [bool],
}

impl Walker<'_> {
    /// Goes on to a place.
    fn goes(&mut self, place: SlotPosition) -> Stop {
        self.place = place;
        Stop::Going
    }

    fn returns(&mut self) -> Stop {
        match self.stack.pop() {
            Some(place) => self.goes(place),
            None => Stop::Ended,
        }
    }

    fn enters(&mut self, entry: Option<SlotPosition>) -> Result<Stop, AllocError> {
        let Some(entry) = entry else {
            return Ok(Stop::Left);
        };
        self.stack.push(further(self.place, 1))?;
        Ok(self.goes(entry))
    }

    fn decides(&mut self, by: i64) -> Stop {
        let Some((is_taken, rest)) = self.decisions.split_first() else {
            return Stop::Waiting;
        };
        self.decisions = rest;
        let next = further(self.place, 1);
        self.goes(if *is_taken { further(next, by) } else { next })
    }

    fn step(&mut self, code: Code<'_>) -> Result<Stop, AllocError> {
        let Some(slot) = code.fetch(self.place) else {
            return Ok(Stop::Left);
        };
        let next = further(self.place, 1);
        Ok(match flow_of(slot) {
            Flow::Return => self.returns(),
            Flow::PseudoCall => self.enters(code.entry(self.place, slot))?,
            Flow::WideLoad => self.goes(further(next, 1)),
            Flow::Jump(by) => self.goes(further(next, by)),
            Flow::Branch(by) => self.decides(by),
            Flow::Next => self.goes(next),
        })
    }
}

/// The places that were visited, and why the run stands.
#[derive(Drop)]
struct Run {
    visited: Vec<SlotPosition>,
    stop: Stop,
}

fn walk(alloc: Global, code: Code<'_>, decisions: &[bool]) -> Result<Run, AllocError> {
    let mut walker = Walker {
        place: (0, 0),
        stack: Vec::new(alloc),
        decisions,
    };
    let mut visited = Vec::new(alloc);
    for _ in 0..STEPS {
        let place = walker.place;
        let stop = walker.step(code)?;
        if stop == Stop::Left {
            return Ok(Run { visited, stop });
        }
        visited.push(place)?;
        if stop != Stop::Going {
            return Ok(Run { visited, stop });
        }
    }
    Ok(Run {
        visited,
        stop: Stop::Going,
    })
}

/// The function and the slot that stand at a place of the linked program, where these functions stand in turn.
fn name(bodies: &[Body<'_>], order: &[usize], place: SlotPosition) -> Option<SlotPosition> {
    let mut rest = usize::try_from(place.1).ok()?;
    for function in order {
        let slots = bodies.get(*function)?.slots;
        if rest < slots.len() {
            return Some((*function, i64::try_from(rest).ok()?));
        }
        rest = rest.saturating_sub(slots.len());
    }
    None
}

/// Functions, and the program that they are linked to, whose functions stand in this order.
#[derive(Clone, Copy)]
struct Row<'a> {
    bodies: &'a [Body<'a>],
    calls: &'a [Vec<Reference>],
    slots: &'a [bpf_insn],
    order: &'a [usize],
}

impl Row<'_> {
    fn name(&self, place: SlotPosition) -> Option<SlotPosition> {
        name(self.bodies, self.order, place)
    }

    /// Whether both machines visit the same slots and end, wait or go on alike.
    fn agrees(&self, alloc: Global, decisions: &[bool]) -> Result<bool, AllocError> {
        let separate = walk(alloc, Code::Separate(self.bodies, self.calls), decisions)?;
        let flat = walk(alloc, Code::Flat(self.slots), decisions)?;
        Ok(
            separate.stop != Stop::Left
                && separate.stop == flat.stop
                && separate.visited.len() == flat.visited.len()
                && self.are_named(flat.visited.as_slice(), separate.visited.as_slice()),
        )
    }

    /// Whether these places of the linked program are those of the functions.
    fn are_named(&self, flat: &[SlotPosition], separate: &[SlotPosition]) -> bool {
        let mut pairs = separate.iter().zip(flat.iter());
        pairs.all(|(place, flat)| self.name(*flat) == Some(*place))
    }

    /// Each place that the linked program visits, with its function and slot, and why it stands.
    fn visits(&self, alloc: Global, decisions: &[bool]) -> Result<String, AllocError> {
        let mut text = String::new(alloc);
        let run = walk(alloc, Code::Flat(self.slots), decisions)?;
        for place in run.visited.iter() {
            self.add_place(&mut text, *place)?;
        }
        write!(text, "{:?}", run.stop)?;
        Ok(text)
    }

    /// A place of the linked program, with its function and slot.
    fn add_place(&self, text: &mut String, place: SlotPosition) -> Result<(), AllocError> {
        let flat = place.1;
        match self.name(place) {
            Some((function, slot)) => write!(text, "{flat}={function}.{slot} ")?,
            None => write!(text, "{flat}=? ")?,
        }
        Ok(())
    }
}

/// How many decisions a list has at most.
const DECISIONS: usize = 4;

/// The lists are numbered from 1 on: the bits of a number, without the highest one.
const LISTS: u32 = 31;

/// The list of a number, whose first decision is the lowest bit.
fn list_of(alloc: Global, number: u32) -> Result<Vec<bool>, AllocError> {
    let mut list = Vec::new(alloc);
    let mut rest = number;
    for _ in 0..DECISIONS {
        if rest <= 1 {
            break;
        }
        list.push(rest % 2 == 1)?;
        rest /= 2;
    }
    Ok(list)
}

/// How many lists of decisions there are under which both machines agree.
fn agreeing(alloc: Global, row: &Row<'_>) -> Result<usize, AllocError> {
    let mut count: usize = 0;
    for number in 1..=LISTS {
        let decisions = list_of(alloc, number)?;
        if row.agrees(alloc, &decisions)? {
            count = count.saturating_add(1);
        }
    }
    Ok(count)
}

/// The slots of a linked program; none where there is a fault.
fn slots_of(answer: &Answer) -> &[bpf_insn] {
    match answer {
        Some(Ok(program)) => program.slots.as_slice(),
        _ => &[],
    }
}

/// What the first function, linked, visits under these decisions, and under how many lists it visits what the functions do.
/// `order` has the functions in the order in which they are to stand.
fn outcome(
    alloc: Global,
    bodies: &[Body<'_>],
    calls: &[Vec<Reference>],
    order: &[usize],
    decisions: &[bool],
) -> Result<String, AllocError> {
    let answer = linked(alloc, bodies, calls)?;
    let row = Row {
        bodies,
        calls,
        slots: slots_of(&answer),
        order,
    };
    let visits = row.visits(alloc, decisions)?;
    let count = agreeing(alloc, &row)?;
    format!(in alloc; "{visits}, {count} lists agree")
}

/// Functions with their references, and the order in which they are to stand.
#[derive(Clone, Copy)]
struct Functions<'a> {
    slots: &'a [TestSlots<'a>],
    references: &'a [TestReference],
    order: &'a [usize],
}

/// Fails where the first of these functions doesn't visit this under these decisions.
fn visits(
    alloc: Global,
    functions: Functions<'_>,
    decisions: &[bool],
    want: &str,
) -> Result<(), Fail> {
    let bodies = plain_bodies(alloc, functions.slots)?;
    let calls = lists(alloc, bodies.len(), functions.references)?;
    let text = outcome(alloc, &bodies, &calls, functions.order, decisions)?;
    same(text.as_str(), want)
}

/// A program that calls itself: the place 2 is the first slot of its copy.
#[test]
fn calls_itself(rt: HostRuntime) -> Result<(), Fail> {
    let functions = Functions {
        slots: &[&CALLS],
        references: &[(0, 0, PROGRAM)],
        order: &[0, 0],
    };
    let want =
        "0=0.0 2=0.0 2=0.0 2=0.0 2=0.0 2=0.0 2=0.0 2=0.0 2=0.0 2=0.0 2=0.0 2=0.0 2=0.0 2=0.0 2=0.0 \
        2=0.0 2=0.0 2=0.0 2=0.0 2=0.0 Going, 31 lists agree";
    visits(rt.alloc(), functions, &[], want)
}

/// P calls f and g, f calls g.
#[test]
fn calls_in_turn(rt: HostRuntime) -> Result<(), Fail> {
    let functions = Functions {
        slots: &[&CALLS_TWICE, &CALLS, &ENDS],
        references: &[(0, 0, F), (0, 1, G), (1, 0, G)],
        order: &[0, 1, 2],
    };
    let want = "0=0.0 3=1.0 5=2.0 4=1.1 1=0.1 5=2.0 2=0.2 Ended, 31 lists agree";
    visits(rt.alloc(), functions, &[], want)
}

/// A jump by so many slots, where a register is not 0.
const fn branch(off: i16) -> bpf_insn {
    bpf_insn {
        code: 0x55,
        off,
        ..NOTHING
    }
}

/// What a program visits that branches over a call of a function, under these decisions.
fn branches(alloc: Global, decisions: &[bool], want: &str) -> Result<(), Fail> {
    let program = [branch(1), CALL, EXIT];
    let functions = Functions {
        slots: &[&program, &ENDS],
        references: &[(0, 1, F)],
        order: &[0, 1],
    };
    visits(alloc, functions, decisions, want)
}

#[test]
fn branch_over_a_call(rt: HostRuntime) -> Result<(), Fail> {
    let taken = "0=0.0 2=0.2 Ended, 31 lists agree";
    branches(rt.alloc(), &[true], taken)?;
    let passed = "0=0.0 1=0.1 3=1.0 2=0.2 Ended, 31 lists agree";
    branches(rt.alloc(), &[false], passed)?;
    let waits = "0=0.0 Waiting, 31 lists agree";
    branches(rt.alloc(), &[], waits)
}

/// A jump by the offset.
const fn jump(off: i16) -> bpf_insn {
    bpf_insn {
        code: opcodes::JA,
        off,
        ..NOTHING
    }
}

/// A jump by the immediate number.
const fn long_jump(imm: i32) -> bpf_insn {
    bpf_insn {
        code: opcodes::JA32,
        imm,
        ..NOTHING
    }
}

/// P loads the address of g, calls f, jumps over its exit and back to it. f calls g until a branch leads out.
fn loops(alloc: Global, decisions: &[bool], want: &str) -> Result<(), Fail> {
    let program = [LOAD, NOTHING, CALL, long_jump(1), EXIT, jump(-2)];
    let function = [branch(2), CALL, jump(-3), EXIT];
    let functions = Functions {
        slots: &[&program, &function, &ENDS],
        references: &[(0, 0, G), (0, 2, F), (1, 1, G)],
        order: &[0, 2, 1],
    };
    visits(alloc, functions, decisions, want)
}

#[test]
fn loads_jumps_and_loops(rt: HostRuntime) -> Result<(), Fail> {
    let twice =
        "0=0.0 2=0.2 7=1.0 8=1.1 6=2.0 9=1.2 7=1.0 10=1.3 3=0.3 5=0.5 4=0.4 Ended, 31 lists agree";
    loops(rt.alloc(), &[false, true], twice)?;
    let waits = "0=0.0 2=0.2 7=1.0 Waiting, 31 lists agree";
    loops(rt.alloc(), &[], waits)
}

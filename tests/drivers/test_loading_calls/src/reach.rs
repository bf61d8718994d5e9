//! Programs, and which of their slots are reached.

use ebpf_parts::insn::bpf_insn;
use ebpf_parts::insn::opcodes::{CALL, EXIT};
use ebpf_reachability::reached_slots;
use std::alloc::{AllocError, Global};
use std::test::Fail;
use test_same::same;

/// A slot: its code, its registers' byte (the source in the high four bits), its offset and its immediate.
const fn slot(code: u8, regs: u8, off: i16, imm: i32) -> bpf_insn {
    bpf_insn {
        code,
        regs,
        off,
        imm,
    }
}

fn exit() -> bpf_insn {
    slot(EXIT, 0, 0, 0)
}

/// A call of a helper function.
fn helper() -> bpf_insn {
    slot(CALL, 0, 0, 1)
}

/// What CO-RE relocations leave of a slot that they poison.
fn poisoned() -> bpf_insn {
    slot(CALL, 0, 0, 0x0bad_2310)
}

/// A register takes a number, all 64 bits of it.
fn mov(register: u8, imm: i32) -> bpf_insn {
    slot(0xb7, register, 0, imm)
}

/// Skips a slot where a register equals a number, all 64 bits of it.
fn skip_if_equal(register: u8, imm: i32) -> bpf_insn {
    slot(0x15, register, 1, imm)
}

/// A digit for each flag: 1 where it is set.
fn digits(alloc: Global, flags: &[bool]) -> Result<String, AllocError> {
    let mut text = String::new(alloc);
    for flag in flags {
        text.push(if *flag { '1' } else { '0' })?;
    }
    Ok(text)
}

/// A digit for each slot: 1 where it is reached.
fn reached_text(alloc: Global, slots: &[bpf_insn]) -> Result<String, AllocError> {
    let flags = reached_slots(alloc, slots)?;
    digits(alloc, flags.as_slice())
}

/// Fails where other slots are reached than these.
fn reaches(alloc: Global, slots: &[bpf_insn], want: &str) -> Result<(), Fail> {
    let text = reached_text(alloc, slots)?;
    same(text.as_str(), want)
}

/// No slot, no flag.
#[test]
fn empty(rt: HostRuntime) -> Result<(), Fail> {
    reaches(rt.alloc(), &[], "")
}

/// A jump goes both ways where nothing is known of its operand.
#[test]
fn both_ways(rt: HostRuntime) -> Result<(), Fail> {
    let slots = [skip_if_equal(1, 0), poisoned(), exit()];
    reaches(rt.alloc(), &slots, "111")
}

/// r1 = 0; if r1 == 0 goto +1; poisoned; exit.
#[test]
fn guarded(rt: HostRuntime) -> Result<(), Fail> {
    let slots = [mov(1, 0), skip_if_equal(1, 0), poisoned(), exit()];
    reaches(rt.alloc(), &slots, "1101")?;
    let other = [mov(1, 1), skip_if_equal(1, 0), poisoned(), exit()];
    reaches(rt.alloc(), &other, "1111")
}

/// The lower 32 bits decide a jump of class 6, all 64 one of class 5: r1 = -1 is 2 ^ 32 - 1 to the first alone.
#[test]
fn widths(rt: HostRuntime) -> Result<(), Fail> {
    // w2 = -1 (the upper half zero); if r1 == r2 goto +1; the same with if w1 == w2
    for (code, want) in [(0x1d, "11111"), (0x1e, "11101")] {
        let slots = [
            mov(1, -1),
            slot(0xb4, 2, 0, -1),
            slot(code, 0x21, 1, 0),
            poisoned(),
            exit(),
        ];
        reaches(rt.alloc(), &slots, want)?;
    }
    Ok(())
}

/// The sign counts in a jump that asks for it, and in no other.
#[test]
fn signs(rt: HostRuntime) -> Result<(), Fail> {
    // if r1 s< 0, of -1
    let signed = [mov(1, -1), slot(0xc5, 1, 1, 0), poisoned(), exit()];
    reaches(rt.alloc(), &signed, "1101")?;
    // if r1 < 0, of -1
    let unsigned = [mov(1, -1), slot(0xa5, 1, 1, 0), exit(), poisoned()];
    reaches(rt.alloc(), &unsigned, "1110")
}

/// The fields of a slot.
type Fields = (u8, u8, i16, i32);

/// An operation with its name: the number in r1 before it (in r2 is 3), its slot, a number that may be in r1 behind it,
/// and whether that is known to be there.
type Operation = (&'static str, i32, Fields, i32, bool);

/// What an operation makes of 64-bit numbers, read by a jump: the slot behind is reached where it isn't as expected.
fn read_by_a_jump(
    alloc: Global,
    x: i32,
    operation: bpf_insn,
    wanted: i32,
) -> Result<String, AllocError> {
    let slots = [
        mov(1, x),
        mov(2, 3),
        operation,
        skip_if_equal(1, wanted),
        poisoned(),
        exit(),
    ];
    reached_text(alloc, &slots)
}

/// Fails where an operation gives this and shouldn't, or doesn't and should.
fn gives(alloc: Global, operation: &Operation) -> Result<(), Fail> {
    let (name, x, (code, regs, off, imm), wanted, is_known) = *operation;
    let text = read_by_a_jump(alloc, x, slot(code, regs, off, imm), wanted)?;
    if (text.as_str() == "111101") == is_known {
        return Ok(());
    }
    Err(Fail::new(name))
}

fn give(alloc: Global, operations: &[Operation]) -> Result<(), Fail> {
    for operation in operations {
        gives(alloc, operation)?;
    }
    Ok(())
}

/// Arithmetic of 64 bits, by RFC 9669's rules.
const ARITHMETIC_64: [Operation; 12] = [
    ("add", 7, (0x0f, 0x21, 0, 0), 10, true),
    ("sub", 7, (0x17, 1, 0, 9), -2, true),
    ("mul", -7, (0x2f, 0x21, 0, 0), -21, true),
    ("div", 7, (0x3f, 0x21, 0, 0), 2, true),
    ("div by zero", 7, (0x37, 1, 0, 0), 0, true),
    ("sdiv", -7, (0x3f, 0x21, 1, 0), -2, true),
    ("smod", -7, (0x9f, 0x21, 1, 0), -1, true),
    ("mod by zero", 7, (0x97, 1, 0, 0), 7, true),
    ("mod", 8, (0x97, 1, 0, 5), 3, true),
    ("or", 12, (0x4f, 0x21, 0, 0), 15, true),
    ("and", 6, (0x5f, 0x21, 0, 0), 2, true),
    ("xor", 6, (0xaf, 0x21, 0, 0), 5, true),
];

#[test]
fn arithmetic_64(rt: HostRuntime) -> Result<(), Fail> {
    give(rt.alloc(), &ARITHMETIC_64)
}

/// Shifts, signs and bytes.
const SHIFTS_AND_BYTES: [Operation; 9] = [
    ("lsh", 5, (0x6f, 0x21, 0, 0), 40, true),
    ("lsh by 65", 5, (0x67, 1, 0, 65), 10, true),
    ("rsh", 40, (0x7f, 0x21, 0, 0), 5, true),
    ("arsh", -16, (0xcf, 0x21, 0, 0), -2, true),
    ("neg", 5, (0x87, 1, 0, 0), -5, true),
    ("to big endian", 0x1234, (0xdc, 1, 0, 16), 0x3412, true),
    (
        "to little endian",
        0x0123_4567,
        (0xd4, 1, 0, 16),
        0x4567,
        true,
    ),
    ("bswap", 0x1234_5678, (0xd7, 1, 0, 32), 0x7856_3412, true),
    ("mov", 0, (0xbf, 0x21, 0, 0), 3, true),
];

#[test]
fn shifts_and_bytes(rt: HostRuntime) -> Result<(), Fail> {
    give(rt.alloc(), &SHIFTS_AND_BYTES)
}

/// Moves of fewer bits extend their sign; one of another offset is no instruction, nor is NEG of a register.
const MOVES: [Operation; 4] = [
    ("movsx", 0x1ff, (0xbf, 0x11, 8, 0), -1, true),
    ("movsx to 32", 0x17f, (0xbc, 0x11, 8, 0), 0x7f, true),
    ("no movsx", 3, (0xbf, 0x11, 24, 0), 3, false),
    ("no neg", 3, (0x8f, 0x11, 0, 0), -3, false),
];

#[test]
fn moves(rt: HostRuntime) -> Result<(), Fail> {
    give(rt.alloc(), &MOVES)
}

/// Arithmetic of 32 bits leaves the upper half zero.
const ARITHMETIC_32: [Operation; 5] = [
    ("add", -1, (0x04, 1, 0, 1), 0, true),
    ("rsh", -1, (0x74, 1, 0, 28), 15, true),
    ("lsh by 33", -1, (0x64, 1, 0, 33), 2, false),
    ("lsh by 33", 1, (0x64, 1, 0, 33), 2, true),
    ("sdiv has no upper half", -7, (0x3c, 0x21, 1, 0), -2, false),
];

#[test]
fn arithmetic_32(rt: HostRuntime) -> Result<(), Fail> {
    give(rt.alloc(), &ARITHMETIC_32)
}

/// A call forgets r0 to r5 and keeps the others.
#[test]
fn calls(rt: HostRuntime) -> Result<(), Fail> {
    let kept = [mov(6, 0), helper(), skip_if_equal(6, 0), poisoned(), exit()];
    reaches(rt.alloc(), &kept, "11101")?;
    let lost = [mov(5, 0), helper(), skip_if_equal(5, 0), poisoned(), exit()];
    reaches(rt.alloc(), &lost, "11111")
}

/// A call of a function of the same program reaches it, and goes on behind it.
#[test]
fn pseudo_call(rt: HostRuntime) -> Result<(), Fail> {
    // r1 = 0; call +1; exit; in the function: if r1 == 0 goto +1; slot; exit; behind it a slot that none reaches
    let slots = [
        mov(1, 0),
        slot(CALL, 0x10, 0, 1),
        exit(),
        skip_if_equal(1, 0),
        mov(2, 0),
        exit(),
        exit(),
    ];
    reaches(rt.alloc(), &slots, "1111110")
}

/// A callback's first slot is reached from where its address is loaded.
#[test]
fn callback(rt: HostRuntime) -> Result<(), Fail> {
    // r1 = the address of slot 4; exit; a slot that none reaches; the callback
    let slots = [
        slot(0x18, 0x41, 0, 3),
        slot(0, 0, 0, 0),
        exit(),
        exit(),
        exit(),
    ];
    reaches(rt.alloc(), &slots, "10101")
}

/// A wide load's number is known, both halves of it.
#[test]
fn wide_loads(rt: HostRuntime) -> Result<(), Fail> {
    // r1 = 2 ^ 32 ll; r1 >>= 32; if r1 == 1 goto +1
    let slots = [
        slot(0x18, 1, 0, 0),
        slot(0, 0, 0, 1),
        slot(0x77, 1, 0, 32),
        skip_if_equal(1, 1),
        poisoned(),
        exit(),
    ];
    reaches(rt.alloc(), &slots, "101101")
}

/// A loop, of which no number is known behind the first turn.
#[test]
fn loops(rt: HostRuntime) -> Result<(), Fail> {
    // r1 = 0; r1 += 1; if r1 != 10 goto -2; exit
    let slots = [
        mov(1, 0),
        slot(0x07, 1, 0, 1),
        slot(0x55, 1, -2, 10),
        exit(),
    ];
    reaches(rt.alloc(), &slots, "1111")?;
    // without an end
    let forever = [slot(0x05, 0, -1, 0), exit()];
    reaches(rt.alloc(), &forever, "10")
}

/// Where paths meet, equal numbers stay and others are forgotten.
#[test]
fn meetings(rt: HostRuntime) -> Result<(), Fail> {
    // if r1 == 0 goto +2; r2 = 5; goto +1; r2 = n; if r2 == 5 goto +1; poisoned; exit
    let equal = [
        slot(0x15, 1, 2, 0),
        mov(2, 5),
        slot(0x05, 0, 1, 0),
        mov(2, 5),
        skip_if_equal(2, 5),
        poisoned(),
        exit(),
    ];
    reaches(rt.alloc(), &equal, "1111101")?;
    let mut different = equal;
    different[3] = mov(2, 6);
    reaches(rt.alloc(), &different, "1111111")
}

/// A poisoned slot is walked past, and no register is known behind it.
#[test]
fn past_poison(rt: HostRuntime) -> Result<(), Fail> {
    let slots = [mov(6, 0), poisoned(), skip_if_equal(6, 0), helper(), exit()];
    reaches(rt.alloc(), &slots, "11111")
}

/// Jumps out of the program lead nowhere.
#[test]
fn leaves(rt: HostRuntime) -> Result<(), Fail> {
    reaches(rt.alloc(), &[slot(0x05, 0, 7, 0), exit()], "10")?;
    reaches(rt.alloc(), &[slot(0x06, 0, 0, -2), exit()], "10")?;
    reaches(rt.alloc(), &[slot(0x06, 0, 0, 0), exit()], "11")?;
    reaches(rt.alloc(), &[slot(0x18, 0, 0, 0)], "1")
}

/// Loads, and atomic operations that fetch, forget; stores don't.
const MEMORY: [Operation; 4] = [
    ("a load", 5, (0x79, 0xa1, -8, 0), 5, false),
    ("a store", 5, (0x7b, 0x1a, -8, 0), 5, true),
    ("an atomic operation", 5, (0xdb, 0x1a, -8, 1), 5, false),
    ("packet access", 5, (0x20, 0, 0, 0), 5, false),
];

#[test]
fn memory(rt: HostRuntime) -> Result<(), Fail> {
    give(rt.alloc(), &MEMORY)
}

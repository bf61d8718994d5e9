//! The initial values of maps of an object that clang 14 made, and what is said of it where it is changed.

use super::hex::bytes_of;
use ebpf_base::Items;
use ebpf_initial_slots::{InitialSlot, InitialSlotError, InitialTarget, initial_slots};
use ebpf_object::Object;
use ebpf_parts::{ParseError, ParseMode};
use std::alloc::{AllocError, Global};
use std::fmt::Debug;
use std::test::Fail;
use test_same::same;

/// The object of this text, by `clang -target bpf -g -O2 -c`, without what debuggers read, `.BTF.ext` and `.rel.BTF`:
///
/// ```c
/// #define SEC(name) __attribute__((section(name), used))
/// #define __uint(name, value) int(*name)[value]
/// #define __array(name, value) typeof(value) *name[]
///
/// struct inner {
///     __uint(type, 2);
///     __uint(key_size, 4);
/// } first SEC(".maps"), second SEC(".maps");
///
/// struct {
///     __uint(type, 12);
///     __uint(key_size, 4);
///     __array(values, struct inner);
/// } outer SEC(".maps") = {.values = {&second, 0, &first}};
///
/// struct {
///     __uint(type, 13);
///     __uint(key_size, 4);
///     __array(values, struct inner);
/// } hashed SEC(".maps") = {.values = {[1] = &second}};
///
/// int call(void *), tail(void *);
///
/// struct {
///     __uint(type, 3);
///     __uint(key_size, 4);
///     __array(values, int(void *));
/// } calls SEC(".maps") = {.values = {[1] = &tail, [2] = &call}};
///
/// SEC("xdp") int call(void *context) { return 1; }
/// SEC("xdp") int tail(void *context) { return 2; }
/// ```
const OBJECT: [&str; 43] = [
    "7f454c460201010000000000000000000100f70001000000000000000000000000000000000000003006000000000000",
    "00000000400000000000400007000100b7000000020000009500000000000000b7000000010000009500000000000000",
    "000000000000000000000000000000000000000000000000000000000000000000000000000000000000000000000000",
    "000000000000000000000000000000000000000000000000000000000000000000000000000000000000000000000000",
    "000000000000000000000000000000000000000000000000000000000000000000000000000000000000000000000000",
    "9feb01001800000000000000c8020000c8020000e2000000000000000000000203000000010000000000000104000000",
    "200000010000000000000003000000000200000004000000020000000500000000000001040000002000000000000000",
    "00000002060000000000000000000003000000000200000004000000040000001900000002000004100000001f000000",
    "01000000000000002400000005000000400000002d0000000000000e0700000001000000340000000000000e07000000",
    "0100000000000000000000020b00000000000000000000030000000002000000040000000c0000000000000000000002",
    "070000000000000000000003000000000c00000004000000000000000000000003000004100000001f0000000a000000",
    "000000002400000005000000400000003a0000000d00000080000000410000000000000e0e0000000100000000000000",
    "000000021100000000000000000000030000000002000000040000000d0000000000000003000004100000001f000000",
    "10000000000000002400000005000000400000003a0000000d00000080000000470000000000000e1200000001000000",
    "000000000000000215000000000000000000000300000000020000000400000003000000000000000000000217000000",
    "000000000100000d02000000000000001800000000000000000000020000000000000000000000030000000016000000",
    "04000000000000000000000003000004100000001f00000014000000000000002400000005000000400000003a000000",
    "19000000800000004e0000000000000e1a00000001000000000000000100000d0200000054000000180000005c000000",
    "0100000c1c000000000000000100000d020000005400000018000000a60000000100000c1e000000dc0000000500000f",
    "000000000800000000000000100000000900000000000000100000000f00000000000000280000001300000000000000",
    "200000001b000000000000002800000000696e74005f5f41525241595f53495a455f545950455f5f00696e6e65720074",
    "797065006b65795f73697a65007365636f6e640066697273740076616c756573006f7574657200686173686564006361",
    "6c6c7300636f6e74657874007461696c00786470002f746d702f69732f736c6f74732e63005345432822786470222920",
    "696e74207461696c28766f6964202a636f6e7465787429207b2072657475726e20323b207d0063616c6c005345432822",
    "786470222920696e742063616c6c28766f6964202a636f6e7465787429207b2072657475726e20313b207d002e6d6170",
    "730000000000000000000000000000000000000000000000000000000000000000000000030002000000000000000000",
    "000000000000000026000000120002000000000000000000100000000000000021000000120002001000000000000000",
    "10000000000000002b000000110003000000000000000000100000000000000001000000110003001000000000000000",
    "100000000000000017000000110003002000000000000000280000000000000032000000110003004800000000000000",
    "200000000000000011000000110003006800000000000000280000000000000030000000000000000200000004000000",
    "400000000000000002000000050000006000000000000000020000000400000080000000000000000200000002000000",
    "88000000000000000200000003000000006669727374002e72656c2e6d6170730063616c6c73006f7574657200786470",
    "0063616c6c007461696c007365636f6e6400686173686564002e737472746162002e73796d746162002e425446000000",
    "000000000000000000000000000000000000000000000000000000000000000000000000000000000000000000000000",
    "00000000000000000000000000000000390000000300000000000000000000000000000000000000e005000000000000",
    "4e000000000000000000000000000000010000000000000000000000000000001d000000010000000600000000000000",
    "000000000000000040000000000000002000000000000000000000000000000008000000000000000000000000000000",
    "0b0000000100000003000000000000000000000000000000600000000000000090000000000000000000000000000000",
    "080000000000000000000000000000000700000009000000400000000000000000000000000000009005000000000000",
    "500000000000000006000000030000000800000000000000100000000000000049000000010000000000000000000000",
    "0000000000000000f000000000000000c203000000000000000000000000000004000000000000000000000000000000",
    "410000000200000000000000000000000000000000000000b804000000000000d8000000000000000100000002000000",
    "08000000000000001800000000000000",
];

/// A field: its offset, the number's width in bytes, and its value.
type Field = (usize, usize, u64);

/// Where the relocations of `.maps` stand, of 16 bytes each: of `outer` two, of `hashed` one, of `calls` two.
const RELOCATIONS: usize = 0x590;

/// Where the number of a relocation's symbol stands in it.
const SYMBOL: usize = 12;

/// Where the name of the members `values` stands.
const VALUES: usize = 1034;

/// The offset of the name of the symbol `call`.
const CALL_NAME: u64 = 33;

/// Writes a field.
fn write(bytes: &mut [u8], field: &Field) {
    let (offset, width, value) = *field;
    let numbers = value.to_le_bytes();
    for (byte, slot) in numbers
        .iter()
        .zip(bytes.iter_mut().skip(offset).take(width))
    {
        *slot = *byte;
    }
}

/// Writes fields, one after the other.
fn write_all(bytes: &mut [u8], fields: &[Field]) {
    for field in fields {
        write(bytes, field);
    }
}

/// The bytes of the object with some fields changed.
fn object_bytes(alloc: Global, changes: &[Field]) -> Result<Vec<u8>, AllocError> {
    let mut bytes = bytes_of(alloc, &OBJECT)?;
    write_all(&mut bytes, changes);
    Ok(bytes)
}

/// The object of a file.
fn parsed(alloc: Global, bytes: &[u8]) -> Result<Object, ParseError> {
    Object::parse_as(alloc, bytes, ParseMode::Lenient)
}

/// The initial values of the maps of an object, whose file has these bytes.
fn slots_of(
    alloc: Global,
    file: &[u8],
    object: &Object,
) -> Result<Items<InitialSlot>, InitialSlotError> {
    initial_slots(alloc, file, object)
}

/// Adds a value's line: its map, its index, and the map or the program that it is.
fn add_slot(text: &mut String, slot: &InitialSlot) -> Result<(), AllocError> {
    let (kind, name) = match &slot.target {
        InitialTarget::Map(name) => ("map", name),
        InitialTarget::Program(name) => ("program", name),
    };
    let map = slot.map.as_str();
    writeln!(text, "{map} {} {kind} {}", slot.index, name.as_str())
}

/// A line for each value.
fn lines(alloc: Global, slots: &[InitialSlot]) -> Result<String, AllocError> {
    let mut text = String::new(alloc);
    for slot in slots {
        add_slot(&mut text, slot)?;
    }
    Ok(text)
}

/// These lines, or why there are no values.
fn shown(
    alloc: Global,
    slots: Result<Items<InitialSlot>, InitialSlotError>,
) -> Result<String, AllocError> {
    match slots {
        Ok(slots) => lines(alloc, slots.as_slice()),
        Err(error) => format!(in alloc; "{error}"),
    }
}

/// What has initial values in its maps.
trait HasSlots: Drop {
    /// The initial values, by the bytes of a file.
    fn slots(&self, alloc: Global, file: &[u8]) -> Result<String, AllocError>;
}

impl HasSlots for Object {
    fn slots(&self, alloc: Global, file: &[u8]) -> Result<String, AllocError> {
        shown(alloc, slots_of(alloc, file, self))
    }
}

/// The initial values of what was parsed, or why nothing was. It knows neither type, so that its proof doesn't let go of each
/// part of an object.
fn slots_of_parsed<T: HasSlots, E: Debug + Drop>(
    alloc: Global,
    parsed: Result<T, E>,
    file: &[u8],
) -> Result<String, AllocError> {
    match parsed {
        Ok(object) => object.slots(alloc, file),
        Err(error) => format!(in alloc; "{error:?}"),
    }
}

/// The values of the object of these bytes, by those of a file.
fn outcome(alloc: Global, bytes: &[u8], file: &[u8]) -> Result<String, AllocError> {
    slots_of_parsed(alloc, parsed(alloc, bytes), file)
}

/// Fails where the values of the object with some fields changed aren't these.
fn gives(alloc: Global, changes: &[Field], want: &str) -> Result<(), Fail> {
    let bytes = object_bytes(alloc, changes)?;
    let text = outcome(alloc, &bytes, &bytes)?;
    same(text.as_str(), want)
}

#[test]
fn of_an_object(rt: HostRuntime) -> Result<(), Fail> {
    let want = "calls 1 program tail\ncalls 2 program call\nhashed 1 map second\n\
        outer 0 map second\nouter 2 map first\n";
    gives(rt.alloc(), &[], want)
}

#[test]
fn later_stands(rt: HostRuntime) -> Result<(), Fail> {
    let want = "calls 2 program call\nhashed 1 map second\nouter 2 map first\n";
    let changes = [(RELOCATIONS, 8, 0x40), (RELOCATIONS + 48, 8, 0x88)];
    gives(rt.alloc(), &changes, want)
}

#[test]
fn faults_of_places(rt: HostRuntime) -> Result<(), Fail> {
    let alloc = rt.alloc();
    let sentence = "the relocation at offset 0x44 of .maps is in no map";
    gives(alloc, &[(RELOCATIONS, 8, 0x44)], sentence)?;
    let sentence = "the relocation at offset 0x89 of .maps is in no map";
    gives(alloc, &[(RELOCATIONS + 64, 8, 0x89)], sentence)?;
    let sentence =
        "the relocation at offset 0x28 of .maps is before the member 'values' of the map \"outer\"";
    gives(alloc, &[(RELOCATIONS, 8, 0x28)], sentence)?;
    let sentence =
        "the relocation at offset 0x34 of .maps is at no whole value of the map \"outer\"";
    gives(alloc, &[(RELOCATIONS, 8, 0x34)], sentence)?;
    let sentence = "the relocation at offset 0x64 of .maps is in no map";
    let changes = [(RELOCATIONS + 32, 8, 0x64), (RELOCATIONS + 64, 8, 0x84)];
    gives(alloc, &changes, sentence)
}

/// As linkers write it: the size of the DATASEC, and the offset of `outer`.
const PLACED: [Field; 2] = [(912, 4, 0x90), (944, 4, 0x28)];

#[test]
fn faults_of_maps(rt: HostRuntime) -> Result<(), Fail> {
    let alloc = rt.alloc();
    let sentence =
        "the map \"outer\" of type 1 has initial values, but is neither a map of maps nor an array of programs";
    gives(alloc, &[(468, 4, 1)], sentence)?;
    let sentence =
        "the hash of maps \"hashed\" has initial values and keys of 8 bytes: only of 4 can be";
    gives(alloc, &[(364, 4, 8)], sentence)?;
    let sentence = "the type of the map \"outer\" does not end in a member 'values'";
    gives(alloc, &[(VALUES, 1, 0x56)], sentence)?;
    let sentence =
        "the relocation at offset 0x30 of .maps is before the member 'values' of the map \"outer\"";
    gives(alloc, &PLACED, sentence)
}

#[test]
fn faults_of_symbols(rt: HostRuntime) -> Result<(), Fail> {
    let alloc = rt.alloc();
    let sentence = "the relocation at offset 0x30 of .maps names symbol 99, which the object lacks";
    gives(alloc, &[(RELOCATIONS + SYMBOL, 4, 99)], sentence)?;
    let sentence = "the value \"call\" of the map of maps \"outer\" is not in .maps";
    gives(alloc, &[(RELOCATIONS + SYMBOL, 4, 3)], sentence)?;
    let sentence = "the value \"\" of the map of maps \"outer\" is no map";
    let changes = [(FIRST_SYMBOL + 6, 2, 3), (RELOCATIONS + SYMBOL, 4, 1)];
    gives(alloc, &changes, sentence)?;
    let sentence = "the value \"second\" of the array of programs \"calls\" is no program";
    gives(alloc, &[(RELOCATIONS + 48 + SYMBOL, 4, 4)], sentence)?;
    let sentence =
        "the value \"call\" of the array of programs \"calls\" is not at the start of the program";
    gives(alloc, &in_place_of_call(3, 16), sentence)?;
    gives(alloc, &in_place_of_call(2, 8), sentence)
}

/// Where the symbol with index 1 stands.
const FIRST_SYMBOL: usize = 0x4d0;

/// The symbol with index 1 as one of the name `call`, in a section and at an address, in place of `call`.
fn in_place_of_call(section: u64, address: u64) -> [Field; 4] {
    [
        (FIRST_SYMBOL, 4, CALL_NAME),
        (FIRST_SYMBOL + 6, 2, section),
        (FIRST_SYMBOL + 8, 8, address),
        (RELOCATIONS + 64 + SYMBOL, 4, 1),
    ]
}

/// Fails where a file of no bytes isn't refused.
fn refuses_no_file(alloc: Global, bytes: &[u8]) -> Result<(), Fail> {
    let text = outcome(alloc, bytes, &[])?;
    same(
        text.as_str(),
        "the file has fewer than the 64 bytes of an ELF header",
    )
}

#[test]
fn of_no_file(rt: HostRuntime) -> Result<(), Fail> {
    let bytes = object_bytes(rt.alloc(), &[])?;
    refuses_no_file(rt.alloc(), &bytes)
}

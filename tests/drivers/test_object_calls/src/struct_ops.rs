//! The maps of struct_ops of an object that clang 14 made, by types of a kernel that are made here.

use super::hex::bytes_of;
use ebpf_base::Items;
use ebpf_btf::{Btf, BtfError, BtfMember, BtfType, Rows};
use ebpf_object::Object;
use ebpf_parts::{ParseError, ParseMode};
use ebpf_struct_ops::{
    StructOpsError, StructOpsMap, StructOpsMember, StructOpsVariable, struct_ops_map, struct_ops_maps,
    struct_ops_variables,
};
use std::alloc::{AllocError, Global};
use std::test::Fail;
use test_same::same;
use test_types::{add_int, add_pointer, member};

/// The object of this text, by `clang -target bpf -g -O2 -c`, without what debuggers read, `.BTF.ext` and `.rel.BTF`:
///
/// ```c
/// #define SEC(name) __attribute__((section(name), used))
///
/// struct small_ops {
///     int (*first)(void);
///     unsigned int flags;
///     unsigned int extra;
///     void (*second)(int);
/// };
///
/// struct small_ops___newer {
///     unsigned int flags;
///     void (*second)(int);
/// };
///
/// SEC("struct_ops/first") int first(void *context) { return 1; }
/// SEC("struct_ops.s/second") int second(void *context) { return 2; }
/// SEC("xdp") int other(void *context) { return 2; }
///
/// SEC(".struct_ops") struct small_ops plain = {.first = (void *)first, .flags = 7, .second = (void *)second};
/// SEC(".struct_ops.link") struct small_ops linked = {.second = (void *)second, .extra = 3};
/// SEC("?.struct_ops.link") struct small_ops___newer asked = {.flags = 0x1020304, .second = (void *)second};
/// ```
const OBJECT: [&str; 50] = [
    "7f454c460201010000000000000000000100f7000100000000000000000000000000000000000000b805000000000000",
    "0000000040000000000040000e000100b7000000010000009500000000000000b7000000020000009500000000000000",
    "b70000000200000095000000000000000000000000000000070000000000000000000000000000000000000000000000",
    "00000000030000000000000000000000040302010000000000000000000000009feb010018000000000000009c010000",
    "9c01000084010000000000000000000200000000000000000100000d0300000001000000010000000900000000000001",
    "04000000200000010d0000000100000c02000000000000000100000d030000000100000001000000730000000100000c",
    "05000000000000000100000d030000000100000001000000d10000000100000c070000000d0100000400000418000000",
    "0d0000000a00000000000000170100000c000000400000001d0100000c00000060000000730000000d00000080000000",
    "00000000000000020b000000000000000000000d03000000230100000000000104000000200000000000000000000002",
    "0e000000000000000100000d000000000000000003000000300100000000000e0900000001000000360100000000000e",
    "09000000010000003d0100000200000410000000170100000c00000000000000730000000d000000400000004f010000",
    "0000000e1100000001000000550100000100000f000000000f0000000000000018000000610100000100000f00000000",
    "100000000000000018000000720100000100000f0000000012000000000000001000000000636f6e7465787400696e74",
    "006669727374007374727563745f6f70732f6669727374002f746d702f68362f736d616c6c2e63005345432822737472",
    "7563745f6f70732f6669727374222920696e7420666972737428766f6964202a636f6e7465787429207b207265747572",
    "6e20313b207d007365636f6e64007374727563745f6f70732e732f7365636f6e640053454328227374727563745f6f70",
    "732e732f7365636f6e64222920696e74207365636f6e6428766f6964202a636f6e7465787429207b2072657475726e20",
    "323b207d006f7468657200786470005345432822786470222920696e74206f7468657228766f6964202a636f6e746578",
    "7429207b2072657475726e20323b207d00736d616c6c5f6f707300666c61677300657874726100756e7369676e656420",
    "696e7400706c61696e006c696e6b656400736d616c6c5f6f70735f5f5f6e657765720061736b6564002e737472756374",
    "5f6f7073002e7374727563745f6f70732e6c696e6b003f2e7374727563745f6f70732e6c696e6b000000000000000000",
    "000000000000000000000000000000000000000003000300000000000000000000000000000000000000000003000400",
    "000000000000000000000000000000000000000003000500000000000000000000000000000000001200000012000300",
    "000000000000000010000000000000007000000012000400000000000000000010000000000000002800000012000500",
    "000000000000000010000000000000003200000011000600000000000000000018000000000000007d00000011000800",
    "000000000000000018000000000000007700000011000a00000000000000000010000000000000000000000000000000",
    "020000000400000010000000000000000200000005000000100000000000000002000000050000000800000000000000",
    "0200000005000000002e74657874007374727563745f6f70732f6669727374002e72656c2e7374727563745f6f707300",
    "6f746865720078647000706c61696e002e72656c2e7374727563745f6f70732e6c696e6b002e72656c3f2e7374727563",
    "745f6f70732e6c696e6b007374727563745f6f70732e732f7365636f6e640061736b6564006c696e6b6564002e737472",
    "746162002e73796d746162002e4254460000000000000000000000000000000000000000000000000000000000000000",
    "000000000000000000000000000000000000000000000000000000000000000000000000000000008400000003000000",
    "000000000000000000000000000000001805000000000000990000000000000000000000000000000100000000000000",
    "000000000000000001000000010000000600000000000000000000000000000040000000000000000000000000000000",
    "000000000000000004000000000000000000000000000000070000000100000006000000000000000000000000000000",
    "400000000000000010000000000000000000000000000000080000000000000000000000000000006300000001000000",
    "060000000000000000000000000000005000000000000000100000000000000000000000000000000800000000000000",
    "00000000000000002e000000010000000600000000000000000000000000000060000000000000001000000000000000",
    "0000000000000000080000000000000000000000000000001c0000000100000003000000000000000000000000000000",
    "700000000000000018000000000000000000000000000000080000000000000000000000000000001800000009000000",
    "40000000000000000000000000000000d80400000000000020000000000000000d000000060000000800000000000000",
    "100000000000000052000000010000000300000000000000000000000000000088000000000000001800000000000000",
    "000000000000000008000000000000000000000000000000380000000900000040000000000000000000000000000000",
    "f80400000000000010000000000000000d00000008000000080000000000000010000000000000005100000001000000",
    "03000000000000000000000000000000a000000000000000100000000000000000000000000000000800000000000000",
    "00000000000000004d000000090000004000000000000000000000000000000008050000000000001000000000000000",
    "0d0000000a00000008000000000000001000000000000000940000000100000000000000000000000000000000000000",
    "b00000000000000038030000000000000000000000000000040000000000000000000000000000008c00000002000000",
    "00000000000000000000000000000000e803000000000000f00000000000000001000000040000000800000000000000",
    "1800000000000000",
];

/// A field: its offset, the number's width in bytes, and its value.
type Field = (usize, usize, u64);

/// Where the relocations of `.struct_ops` stand, of 16 bytes each: of `plain` two. Behind them stands that of `linked`.
const RELOCATIONS: usize = 0x4d8;

/// Where the number of a relocation's symbol stands in it.
const SYMBOL: usize = 12;

/// Where the 24 bytes of `linked` stand.
const LINKED: usize = 0x88;

/// Writes a field.
fn write(bytes: &mut [u8], field: &Field) {
    let (offset, width, value) = *field;
    let numbers = value.to_le_bytes();
    for (byte, slot) in numbers
        .iter()
        .zip(bytes.iter_mut().skip(offset).take(width))
    {
        *slot = *byte;
    }
}

/// The bytes of the object with some fields changed.
fn object_bytes(alloc: Global, changes: &[Field]) -> Result<Vec<u8>, AllocError> {
    let mut bytes = bytes_of(alloc, &OBJECT)?;
    for field in changes {
        write(&mut bytes, field);
    }
    Ok(bytes)
}

/// What differs in the types of a kernel from the usual one.
#[derive(Clone, Copy, PartialEq, Eq)]
enum Kernel {
    /// `struct small_ops` has `flags` at offset 0, `first` at 8 and `second` at 16, and is at offset 8 of its value.
    Usual,
    /// It has `extra` at offset 24, too.
    WithExtra,
    /// `flags` has 8 bytes.
    LongFlags,
    /// `flags` is a pointer.
    PointerFlags,
    /// `flags` is a bit field of 8 bits.
    BitField,
    /// `first` is a pointer to no function.
    NoFunction,
    /// The value ends before `second` does.
    ShortValue,
    /// The value does not hold the struct.
    NoData,
    /// There is no value.
    NoValue,
}

/// A STRUCT with a name.
fn add_named(
    types: &mut Btf,
    name: &str,
    size: u32,
    kind_flag: bool,
    members: &[BtfMember],
) -> Result<u32, BtfError> {
    let name_offset = types.add_string(name)?;
    types.add_type(&BtfType::Struct {
        name_offset,
        size,
        kind_flag,
        members: Rows::of(members),
    })
}

/// A pointer to a function without parameters.
fn add_function_pointer(types: &mut Btf) -> Result<u32, BtfError> {
    let btf_type = types.add_type(&BtfType::FuncProto {
        name_offset: 0,
        btf_type: 0,
        params: Rows::of(&[]),
    })?;
    types.add_type(&BtfType::Ptr {
        name_offset: 0,
        btf_type,
    })
}

/// The types of a kernel.
fn kernel_types(alloc: Global, kernel: Kernel) -> Result<Btf, BtfError> {
    let mut types = Btf::new(alloc)?;
    let int = add_int(&mut types, 4, 32)?;
    let long = add_int(&mut types, 8, 64)?;
    let pointer = add_pointer(&mut types)?;
    let function = add_function_pointer(&mut types)?;
    let (flags, first) = (types.add_string("flags")?, types.add_string("first")?);
    let (second, extra) = (types.add_string("second")?, types.add_string("extra")?);
    let of_flags = match kernel {
        Kernel::LongFlags => long,
        Kernel::PointerFlags => pointer,
        _ => int,
    };
    let bits = if kernel == Kernel::BitField { 8 << 24 } else { 0 };
    let of_first = if kernel == Kernel::NoFunction { pointer } else { function };
    let fourth = if kernel == Kernel::WithExtra { extra } else { flags };
    let members = [
        member(flags, of_flags, bits),
        member(first, of_first, 64),
        member(second, function, 128),
        member(fourth, int, 192),
    ];
    let id = add_named(&mut types, "small_ops", 32, kernel == Kernel::BitField, &members)?;
    if kernel == Kernel::NoValue {
        return Ok(types);
    }
    let data = if kernel == Kernel::NoData { long } else { id };
    let size = if kernel == Kernel::ShortValue { 28 } else { 40 };
    let _ = add_named(&mut types, "bpf_struct_ops_small_ops", size, false, &[member(extra, data, 64)])?;
    Ok(types)
}

/// Adds the line of a member with a program.
fn add_member(text: &mut String, member: &StructOpsMember) -> Result<(), AllocError> {
    match &member.program {
        Some(program) => {
            let name = member.name.as_str();
            writeln!(text, "  {name} at {}: {}", member.offset, program.as_str())
        }
        None => Ok(()),
    }
}

/// Adds the lines of a variable.
fn add_variable(text: &mut String, variable: &StructOpsVariable) -> Result<(), AllocError> {
    let (name, type_name) = (variable.name.as_str(), variable.type_name.as_str());
    let (created, link) = (variable.is_created, variable.is_link);
    let size = variable.bytes.len();
    writeln!(text, "{name}: {type_name} of {size} bytes, created {created}, link {link}")?;
    for member in variable.members.iter() {
        add_member(text, member)?;
    }
    Ok(())
}

/// Adds the lines of a map.
fn add_map(text: &mut String, map: &StructOpsMap) -> Result<(), AllocError> {
    let (name, link) = (map.name.as_str(), map.is_link);
    writeln!(text, "{name}: link {link}, struct {}, value {}", map.struct_id, map.value_type_id)?;
    for program in map.programs.iter() {
        let name = program.program.as_str();
        writeln!(text, "  {name} at {} for {}", program.offset, program.member)?;
    }
    for byte in map.value.iter() {
        write!(text, "{byte:02x}")?;
    }
    writeln!(text, "")
}

/// The lines of the variables, or why there are none.
fn variable_lines(alloc: Global, file: &[u8], object: &Object) -> Result<String, AllocError> {
    let mut text = String::new(alloc);
    match struct_ops_variables(alloc, file, object) {
        Ok(variables) => {
            for variable in variables.iter() {
                add_variable(&mut text, variable)?;
            }
        }
        Err(error) => writeln!(text, "{error}")?,
    }
    Ok(text)
}

/// The lines of maps, or why there are none.
fn map_lines(
    alloc: Global,
    maps: Result<Items<StructOpsMap>, StructOpsError>,
) -> Result<String, AllocError> {
    let mut text = String::new(alloc);
    match maps {
        Ok(maps) => {
            for map in maps.iter() {
                add_map(&mut text, map)?;
            }
        }
        Err(error) => writeln!(text, "{error}")?,
    }
    Ok(text)
}

/// The object of a file.
fn parsed(alloc: Global, bytes: &[u8]) -> Result<Object, ParseError> {
    Object::parse_as(alloc, bytes, ParseMode::Lenient)
}

/// Fails where the variables of the object with some fields changed aren't these.
fn has_variables(alloc: Global, changes: &[Field], want: &str) -> Result<(), Fail> {
    let bytes = object_bytes(alloc, changes)?;
    let text = match parsed(alloc, &bytes) {
        Ok(object) => variable_lines(alloc, &bytes, &object)?,
        Err(error) => format!(in alloc; "{error}")?,
    };
    same(text.as_str(), want)
}

/// Fails where the maps of the object with some fields changed aren't these, by the types of a kernel.
fn gives(alloc: Global, kernel: Kernel, changes: &[Field], want: &str) -> Result<(), Fail> {
    let bytes = object_bytes(alloc, changes)?;
    let types = match kernel_types(alloc, kernel) {
        Ok(types) => types,
        Err(error) => return same(format!(in alloc; "{error}")?.as_str(), want),
    };
    let text = match parsed(alloc, &bytes) {
        Ok(object) => map_lines(alloc, struct_ops_maps(alloc, &bytes, &object, &types))?,
        Err(error) => format!(in alloc; "{error}")?,
    };
    same(text.as_str(), want)
}

/// `extra` of `linked` as zero, which a kernel without it asks for.
const NO_EXTRA: Field = (LINKED + 12, 4, 0);

#[test]
fn variables(rt: HostRuntime) -> Result<(), Fail> {
    let want = "plain: small_ops of 24 bytes, created true, link false\n  first at 0: first\n  second at 16: second\n\
        linked: small_ops of 24 bytes, created true, link true\n  second at 16: second\n\
        asked: small_ops___newer of 16 bytes, created false, link true\n  second at 8: second\n";
    has_variables(rt.alloc(), &[], want)
}

#[test]
fn maps(rt: HostRuntime) -> Result<(), Fail> {
    let want = "plain: link false, struct 6, value 7\n  first at 16 for 1\n  second at 24 for 2\n\
        00000000000000000700000000000000000000000000000000000000000000000000000000000000\n\
        linked: link true, struct 6, value 7\n  second at 24 for 2\n\
        00000000000000000000000000000000000000000000000000000000000000000000000000000000\n";
    gives(rt.alloc(), Kernel::Usual, &[NO_EXTRA], want)
}

#[test]
fn more_members(rt: HostRuntime) -> Result<(), Fail> {
    let want = "plain: link false, struct 6, value 7\n  first at 16 for 1\n  second at 24 for 2\n\
        00000000000000000700000000000000000000000000000000000000000000000000000000000000\n\
        linked: link true, struct 6, value 7\n  second at 24 for 2\n\
        00000000000000000000000000000000000000000000000000000000000000000300000000000000\n";
    gives(rt.alloc(), Kernel::WithExtra, &[], want)
}

/// Fails where a member isn't refused so.
fn refuses(alloc: Global, kernel: Kernel, member: &str, fault: &str) -> Result<(), Fail> {
    let want = format!(in alloc; "the member \"{member}\" of the map \"plain\": {fault}\n")?;
    gives(alloc, kernel, &[NO_EXTRA], want.as_str())
}

#[test]
fn faults_of_members(rt: HostRuntime) -> Result<(), Fail> {
    let alloc = rt.alloc();
    refuses(alloc, Kernel::LongFlags, "flags", "it is of another size in the kernel")?;
    refuses(alloc, Kernel::PointerFlags, "flags", "it is of another kind in the kernel")?;
    refuses(alloc, Kernel::BitField, "flags", "it is a bit field")?;
    let fault = "it is no pointer to a function in the kernel";
    refuses(alloc, Kernel::NoFunction, "first", fault)?;
    refuses(alloc, Kernel::ShortValue, "second", "it passes the end of the map's value")?;
    let want = "the member \"extra\" of the map \"linked\": the kernel's struct lacks it, and it is not zero\n";
    gives(alloc, Kernel::Usual, &[], want)?;
    let want = "the member \"first\" of the map \"linked\": it is a pointer to no program\n";
    gives(alloc, Kernel::Usual, &[NO_EXTRA, (LINKED + 7, 1, 1)], want)
}

#[test]
fn faults_of_kernels(rt: HostRuntime) -> Result<(), Fail> {
    let alloc = rt.alloc();
    let want = "the kernel's value of the map \"plain\" does not hold its struct\n";
    gives(alloc, Kernel::NoData, &[], want)?;
    let want =
        "the map \"plain\" wants the kernel's struct bpf_struct_ops_small_ops, which the kernel lacks\n";
    gives(alloc, Kernel::NoValue, &[], want)
}

#[test]
fn other_use(rt: HostRuntime) -> Result<(), Fail> {
    let want =
        "the map \"linked\" uses the program \"second\" for another struct or member than its first use\n";
    gives(rt.alloc(), Kernel::Usual, &[NO_EXTRA, (RELOCATIONS + 32, 8, 0)], want)
}

#[test]
fn later_stands(rt: HostRuntime) -> Result<(), Fail> {
    let want = "plain: small_ops of 24 bytes, created true, link false\n  first at 0: second\n\
        linked: small_ops of 24 bytes, created true, link true\n  second at 16: second\n\
        asked: small_ops___newer of 16 bytes, created false, link true\n  second at 8: second\n";
    has_variables(rt.alloc(), &[(RELOCATIONS + 16, 8, 0)], want)
}

/// Fails where a relocation at an offset isn't refused so.
fn refuses_relocation(alloc: Global, field: Field, place: u64, fault: &str) -> Result<(), Fail> {
    let want =
        format!(in alloc; "the relocation at offset {place:#x} of a section of struct_ops: {fault}\n")?;
    has_variables(alloc, &[field], want.as_str())
}

#[test]
fn faults_of_relocations(rt: HostRuntime) -> Result<(), Fail> {
    let alloc = rt.alloc();
    let symbol = RELOCATIONS + SYMBOL;
    refuses_relocation(alloc, (symbol, 4, 99), 0, "the object lacks its symbol")?;
    refuses_relocation(alloc, (symbol, 4, 7), 0, "its symbol names no program")?;
    refuses_relocation(alloc, (symbol, 4, 6), 0, "its program is not of struct_ops")?;
    refuses_relocation(alloc, (RELOCATIONS, 8, 4), 4, "no member begins there")?;
    let fault = "the member is no pointer to a function";
    refuses_relocation(alloc, (RELOCATIONS, 8, 8), 8, fault)?;
    refuses_relocation(alloc, (RELOCATIONS, 8, 24), 24, "it is in no variable")
}

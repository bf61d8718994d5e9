//! Exception callbacks of an object that clang 19 made: the functions that programs are linked with, and what is refused.

use super::hex::bytes_of;
use ebpf_exceptions::complete_programs;
use ebpf_model::Function;
use ebpf_object::Object;
use ebpf_parts::ParseMode;
use std::alloc::{AllocError, Global};
use std::fmt::Debug;
use std::test::Fail;
use test_bare_calls::{Asker, on_parsed};
use test_same::same;

/// The object of this text, by `clang -target bpf -mcpu=v3 -g -O2 -c`, without what debuggers read and `.rel.BTF.ext`:
///
/// ```c
/// #define SEC(name) __attribute__((section(name), used))
/// #define FAR __attribute__((noinline))
/// #define CB(name) __attribute__((btf_decl_tag("exception_callback:" #name)))
/// FAR int shared(int x) { return x * 3; }
/// FAR int late(int x) { return x + 7; }
/// FAR int cb(int x) { return shared(x) + late(x); }
/// FAR int other(int x) { return x; }
/// FAR CB(other) int tagged(int x) { return shared(x) - 1; }
/// SEC("tc") CB(cb) int p(int x) { return tagged(1) + shared(2); }
/// SEC("tc") CB(cb) int direct(int x) { return cb(1) + tagged(2); }
/// SEC("tc") CB(cb) CB(other) int two(int x) { return tagged(3); }
/// SEC("tc") int none(int x) { return tagged(4); }
/// ```
const OBJECT: [&str; 64] = [
    "7f454c460201010000000000000000000100f7000100000000000000000000000000000000000000b009000000000000",
    "00000000400000000000400009000100bc1000000000000024000000030000009500000000000000bc10000000000000",
    "04000000070000009500000000000000bc1600000000000085100000ffffffffbc07000000000000bc61000000000000",
    "85100000ffffffff0c700000000000009500000000000000bc10000000000000950000000000000085100000ffffffff",
    "04000000ffffffff9500000000000000b40100000100000085100000ffffffffbc06000000000000b401000002000000",
    "85100000ffffffff0c600000000000009500000000000000b40100000100000085100000ffffffffbc06000000000000",
    "b40100000200000085100000ffffffff0c600000000000009500000000000000b40100000300000085100000ffffffff",
    "9500000000000000b40100000400000085100000ffffffff95000000000000009feb0100180000000000000080010000",
    "800100004602000001000000000000010400000020000001000000000100000d01000000050000000100000007000000",
    "0100000c02000000000000000100000d010000000500000001000000470000000100000c04000000000000000100000d",
    "010000000500000001000000720000000100000c06000000000000000100000d010000000500000001000000a7000000",
    "0100000c08000000000000000100000d010000000500000001000000d00000000100000c0a000000d700000000000011",
    "0b000000ffffffff000000000100000d0100000005000000010000002a0100000100000c0d0000002c01000000000011",
    "0e000000ffffffff000000000100000d010000000500000001000000850100000100000c100000002c01000000000011",
    "11000000ffffffff000000000100000d010000000500000001000000cd0100000100000c130000002c01000000000011",
    "14000000ffffffffd70000000000001114000000ffffffff000000000100000d01000000050000000100000011020000",
    "0100000c1700000000696e74007800736861726564002e74657874002f7372632f6362322e630046415220696e742073",
    "686172656428696e74207829207b2072657475726e2078202a20333b207d006c6174650046415220696e74206c617465",
    "28696e74207829207b2072657475726e2078202b20373b207d0063620046415220696e7420636228696e74207829207b",
    "2072657475726e20736861726564287829202b206c6174652878293b207d006f746865720046415220696e74206f7468",
    "657228696e74207829207b2072657475726e20783b207d0074616767656400657863657074696f6e5f63616c6c626163",
    "6b3a6f7468657200464152204342286f746865722920696e742074616767656428696e74207829207b2072657475726e",
    "20736861726564287829202d20313b207d007000657863657074696f6e5f63616c6c6261636b3a636200746300534543",
    "2822746322292043422863622920696e74207028696e74207829207b2072657475726e20746167676564283129202b20",
    "7368617265642832293b207d00646972656374005345432822746322292043422863622920696e742064697265637428",
    "696e74207829207b2072657475726e206362283129202b207461676765642832293b207d0074776f0053454328227463",
    "222920434228636229204342286f746865722920696e742074776f28696e74207829207b2072657475726e2074616767",
    "65642833293b207d006e6f6e650053454328227463222920696e74206e6f6e6528696e74207829207b2072657475726e",
    "207461676765642834293b207d0000009feb010020000000000000005c0000005c000000d40100003002000000000000",
    "080000000e00000005000000000000000300000018000000050000003000000007000000680000000900000078000000",
    "0b0000004201000004000000000000000e00000038000000110000007000000014000000880000001800000010000000",
    "0e0000001000000000000000140000001f0000000010000008000000140000001f000000221000001000000014000000",
    "1f0000001910000018000000140000004c0000000014000020000000140000004c000000201400002800000014000000",
    "4c00000017140000300000001400000075000000001800003800000014000000750000001c1800004800000014000000",
    "750000002818000058000000140000007500000026180000600000001400000075000000151800006800000014000000",
    "ad000000001c00007000000014000000ad000000181c00007800000014000000f00000002a2000008000000014000000",
    "f0000000342000008800000014000000f000000023200000420100000c00000000000000140000004501000028240000",
    "180000001400000045010000342400002800000014000000450100003224000030000000140000004501000021240000",
    "38000000140000008c0100002d28000050000000140000008c0100003528000060000000140000008c01000033280000",
    "68000000140000008c010000262800007000000014000000d1010000342c00008000000014000000d10100002d2c0000",
    "880000001400000016020000243000009800000014000000160200001d30000000000000000000000000000000000000",
    "000000000000000000000000030002000000000000000000000000000000000000000000030004000000000000000000",
    "000000000000000031000000120002000000000000000000180000000000000027000000120002001800000000000000",
    "18000000000000004600000012000200300000000000000038000000000000001b000000120002006800000000000000",
    "100000000000000038000000120002007800000000000000180000000000000021000000120004000000000000000000",
    "380000000000000014000000120004003800000000000000380000000000000023000000120004007000000000000000",
    "18000000000000002c000000120004008800000000000000180000000000000038000000000000000a00000003000000",
    "50000000000000000a0000000400000078000000000000000a0000000300000008000000000000000a00000007000000",
    "20000000000000000a0000000300000040000000000000000a0000000500000058000000000000000a00000007000000",
    "78000000000000000a0000000700000090000000000000000a00000007000000002e72656c2e74657874002e4254462e",
    "65787400646972656374006f7468657200700074776f006c617465006e6f6e650073686172656400746167676564002e",
    "72656c7463006362002e737472746162002e73796d746162002e42544600000000000000000000000000000000000000",
    "000000000000000000000000000000000000000000000000000000000000000000000000000000000000000000000000",
    "49000000030000000000000000000000000000000000000050090000000000005e000000000000000000000000000000",
    "010000000000000000000000000000000500000001000000060000000000000000000000000000004000000000000000",
    "900000000000000000000000000000000800000000000000000000000000000001000000090000004000000000000000",
    "0000000000000000c0080000000000003000000000000000080000000200000008000000000000001000000000000000",
    "430000000100000006000000000000000000000000000000d000000000000000a0000000000000000000000000000000",
    "080000000000000000000000000000003f0000000900000040000000000000000000000000000000f008000000000000",
    "600000000000000008000000040000000800000000000000100000000000000059000000010000000000000000000000",
    "00000000000000007001000000000000de03000000000000000000000000000004000000000000000000000000000000",
    "0b0000000100000000000000000000000000000000000000500500000000000050020000000000000000000000000000",
    "04000000000000000000000000000000510000000200000000000000000000000000000000000000a007000000000000",
    "2001000000000000010000000300000008000000000000001800000000000000",
];

/// A field of the object: its offset, its size in bytes, and its new value.
type Field = (usize, usize, u64);

/// The name of the tags of `tagged` and of the second tag of `two`, behind the colon: `other`.
const OTHER_NAME: usize = 0x3df + 19;

/// The name of the other tags, behind the colon: `cb`.
const CB_NAME: usize = 0x434 + 19;

/// The tag of `p`: the type that it is on, and its component.
const P_TARGET: usize = 0x268 + 8;
const P_COMPONENT: usize = 0x268 + 12;

/// The symbol of `cb`: its type and binding, and its visibility.
const CB_BINDING: usize = 0x818 + 4;
const CB_VISIBILITY: usize = 0x818 + 5;

/// The symbol of `tagged`: its type and binding.
const TAGGED_BINDING: usize = 0x848 + 4;

/// The bytes of the object with some fields changed.
fn object_bytes(alloc: Global, changes: &[Field]) -> Result<Vec<u8>, AllocError> {
    let mut bytes = bytes_of(alloc, &OBJECT)?;
    for (offset, width, value) in changes {
        let numbers = value.to_le_bytes();
        for (byte, slot) in numbers
            .iter()
            .zip(bytes.iter_mut().skip(*offset).take(*width))
        {
            *slot = *byte;
        }
    }
    Ok(bytes)
}

/// A question about the object of a file: the linked programs, with the callbacks of its programs or without.
#[derive(Drop)]
struct Asked<'a> {
    alloc: Global,
    file: &'a [u8],
    completes: bool,
}

/// The functions of a program by its link map, with their first slots.
fn map_line(alloc: Global, object: &Object, name: &str) -> Result<String, AllocError> {
    let mut text = String::new(alloc);
    write!(text, "{name}:")?;
    let sections = object.text_sections(alloc)?;
    match object.link_map(name, &sections) {
        Ok(Some(map)) => {
            for copy in map.copies.as_slice() {
                write!(text, " {} {}", copy.name.as_str(), copy.base)?;
            }
        }
        Ok(None) => write!(text, " none")?,
        Err(error) => write!(text, " {error:?}")?,
    }
    Ok(text)
}

/// The number of slots of a linked function, its calls, and its info entries.
fn function_line(alloc: Global, function: &Function) -> Result<String, AllocError> {
    let mut text = String::new(alloc);
    write!(text, "slots {}, calls", function.instructions.len())?;
    for (number, slot) in function.instructions.as_slice().iter().enumerate() {
        if slot.code == 0x85 {
            write!(text, " {number} {}", slot.imm)?;
        }
    }
    write!(text, ", func")?;
    for info in function.func_info.func_info.as_slice() {
        write!(text, " {} {}", info.insn_off, info.type_id)?;
    }
    write!(text, ", lines")?;
    for info in function.line_info.line_info.as_slice() {
        write!(text, " {}", info.insn_off)?;
    }
    Ok(text)
}

/// The programs, linked.
fn program_lines(alloc: Global, object: &mut Object) -> Result<String, AllocError> {
    let mut text = String::new(alloc);
    for name in ["direct", "none", "p", "two"] {
        writeln!(text, "{}", map_line(alloc, object, name)?)?;
    }
    if let Err(error) = object.relocate_own_calls() {
        writeln!(text, "{error:?}")?;
        return Ok(text);
    }
    for (name, program) in object.programs.iter() {
        let Some(function) = object.functions.get(program.function_key()) else {
            continue;
        };
        writeln!(text, "{name} {}", function_line(alloc, function)?)?;
    }
    Ok(text)
}

impl Asker<Object> for Asked<'_> {
    type Answer = Result<String, AllocError>;

    fn asks(self, made: &mut Object) -> Result<String, AllocError> {
        let alloc = self.alloc;
        if self.completes {
            if let Err(error) = complete_programs(made, self.file) {
                return format!(in alloc; "{error}");
            }
        }
        program_lines(alloc, made)
    }

    fn hears<E: Debug>(self, error: &E) -> Result<String, AllocError> {
        format!(in self.alloc; "{error:?}")
    }
}

/// The answer about the object with some fields changed.
fn answer(alloc: Global, changes: &[Field], completes: bool) -> Result<String, AllocError> {
    let file = object_bytes(alloc, changes)?;
    let asked = Asked {
        alloc,
        file: &file,
        completes,
    };
    on_parsed(alloc, &file, ParseMode::Lenient, asked)
}

/// Fails where the answer about the object with some fields changed isn't the wanted one.
fn gives(alloc: Global, changes: &[Field], want: &str) -> Result<(), Fail> {
    let text = answer(alloc, changes, true)?;
    same(text.as_str(), want)
}

/// What libbpf 1.5 gives of each program.
const LINKED: &str = "direct: direct 0 cb 7 shared 14 late 17 tagged 20\n\
    none: none 0 tagged 3 shared 6\n\
    p: p 0 tagged 7 shared 10 cb 13 late 20\n\
    two: two 0 tagged 3 shared 6\n\
    direct slots 23, calls 1 5 4 15 8 5 11 5 20 -7, func 0 17 7 7 14 3 17 5 20 11, lines 0 3 5 6 7 8 10 12 13 14 15 16 17 18 19 20 21 22\n\
    none slots 9, calls 1 1 3 2, func 0 24 3 11 6 3, lines 0 2 3 4 5 6 7 8\n\
    p slots 23, calls 1 5 4 5 7 2 14 -5 17 2, func 0 14 7 11 10 3 13 7 20 5, lines 0 3 5 6 7 8 9 10 11 12 13 14 16 18 19 20 21 22\n\
    two slots 9, calls 1 1 3 2, func 0 20 3 11 6 3, lines 0 2 3 4 5 6 7 8\n";

/// The programs without their callbacks.
const WITHOUT: &str = "direct: direct 0 cb 7 shared 14 late 17 tagged 20\n\
    none: none 0 tagged 3 shared 6\n\
    p: p 0 tagged 7 shared 10\n\
    two: two 0 tagged 3 shared 6\n\
    direct slots 23, calls 1 5 4 15 8 5 11 5 20 -7, func 0 17 7 7 14 3 17 5 20 11, lines 0 3 5 6 7 8 10 12 13 14 15 16 17 18 19 20 21 22\n\
    none slots 9, calls 1 1 3 2, func 0 24 3 11 6 3, lines 0 2 3 4 5 6 7 8\n\
    p slots 13, calls 1 5 4 5 7 2, func 0 14 7 11 10 3, lines 0 3 5 6 7 8 9 10 11 12\n\
    two slots 9, calls 1 1 3 2, func 0 20 3 11 6 3, lines 0 2 3 4 5 6 7 8\n";

#[test]
fn callbacks_are_linked_last(rt: HostRuntime) -> Result<(), Fail> {
    gives(rt.alloc(), &[], LINKED)
}

#[test]
fn callbacks_are_not_linked_without_the_call(rt: HostRuntime) -> Result<(), Fail> {
    let text = answer(rt.alloc(), &[], false)?;
    same(text.as_str(), WITHOUT)
}

#[test]
fn tags_of_members_are_passed_over(rt: HostRuntime) -> Result<(), Fail> {
    let text = answer(rt.alloc(), &[(P_COMPONENT, 4, 0), (0x298 + 12, 4, 0)], true)?;
    same(text.as_str(), WITHOUT)
}

#[test]
fn tags_are_refused(rt: HostRuntime) -> Result<(), Fail> {
    let alloc = rt.alloc();
    let want = "the tag of the exception callback \"cb\" is on type 1, which is no FUNC";
    gives(alloc, &[(P_TARGET, 4, 1)], want)?;
    let want = "the function \"tagged\" has the tag of an exception callback, and is neither a program nor global";
    gives(alloc, &[(TAGGED_BINDING, 1, 2)], want)?;
    let want = "the program \"direct\" has the tag of an exception callback without a name";
    gives(alloc, &[(CB_NAME, 2, 0)], want)?;
    let want = "no function of .text is the exception callback \"cx\" of the program \"direct\"";
    gives(alloc, &[(CB_NAME + 1, 1, 0x78)], want)?;
    let want = "the exception callback \"cb\" of the program \"direct\" is not global, or is hidden";
    gives(alloc, &[(CB_BINDING, 1, 2)], want)?;
    gives(alloc, &[(CB_VISIBILITY, 1, 2)], want)?;
    gives(alloc, &[(CB_VISIBILITY, 1, 1)], want)
}

#[test]
fn later_tags_are_not_looked_up(rt: HostRuntime) -> Result<(), Fail> {
    gives(rt.alloc(), &[(OTHER_NAME, 1, 0x78)], LINKED)
}

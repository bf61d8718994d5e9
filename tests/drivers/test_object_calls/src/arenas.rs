//! Arenas of an object that clang 19 made: its data, the slots that refer to it, and what is refused.

use super::hex::bytes_of;
use ebpf_btf_maps::{arena_of, complete_maps};
use ebpf_object::Object;
use ebpf_parts::ParseMode;
use ebpf_parts::insn::bpf_insn;
use std::alloc::{AllocError, Global};
use std::fmt::Debug;
use std::test::Fail;
use test_bare_calls::{Asker, Listener, on_parsed, relocate_maps};
use test_same::same;

/// The object of this text, by `clang -target bpf -g -O2 -c`, without what debuggers read, `.BTF.ext` and `.rel.BTF`:
///
/// ```c
/// #define SEC(name) __attribute__((section(name), used))
/// #define __uint(name, value) int(*name)[value]
/// #define __ulong(name, value) enum { name##_value = value } name
/// #define __arena __attribute__((address_space(1)))
///
/// struct {
///     __uint(type, 33);
///     __uint(map_flags, 1024);
///     __uint(max_entries, 1);
///     __ulong(map_extra, 1ul << 44);
/// } arena SEC(".maps");
///
/// struct {
///     __uint(type, 2);
///     __uint(key_size, 4);
///     __uint(value_size, 8);
///     __uint(max_entries, 1);
/// } counts SEC(".maps");
///
/// int __arena first = 7;
/// int __arena second[2] = {8, 9};
///
/// static int (*touch)(void *) = (void *)1;
///
/// SEC("socket") int use(void *context)
/// {
///     touch(&arena);
///     touch(&counts);
///     second[1] = first;
///     return second[0];
/// }
/// ```
const OBJECT: [&str; 43] = [
    "7f454c460201010000000000000000000100f7000100000000000000000000000000000000000000c805000000000000",
    "000000004000000000004000090001001801000000000000000000000000000085000000010000001801000000000000",
    "0000000000000000850000000100000018010000000000000000000000000000bf120100010000000701000004000000",
    "bf1101000100000018030000000000000000000000000000bf3301000100000061330000000000006331000000000000",
    "612000000000000095000000000000000700000008000000090000000000000000000000000000000000000000000000",
    "000000000000000000000000000000000000000000000000000000000000000000000000000000000000000000000000",
    "9feb010018000000000000003c0200003c0200000b010000000000000000000203000000010000000000000104000000",
    "200000010000000000000003000000000200000004000000210000000500000000000001040000002000000000000000",
    "000000020600000000000000000000030000000002000000040000000004000000000000000000020800000000000000",
    "000000030000000002000000040000000100000000000000010000130800000019000000000000000010000000000000",
    "04000004200000002900000001000000000000002e000000050000004000000038000000070000008000000044000000",
    "09000000c00000004e0000000000000e0a0000000100000000000000000000020d000000000000000000000300000000",
    "02000000040000000200000000000000000000020f000000000000000000000300000000020000000400000004000000",
    "000000000000000211000000000000000000000300000000020000000400000008000000000000000400000420000000",
    "290000000c00000000000000540000000e000000400000005d00000010000000800000003800000007000000c0000000",
    "680000000000000e1200000001000000000000000000000200000000000000000100000d020000006f00000014000000",
    "770000000100000c15000000ea0000000000000e0200000001000000f00000000000000e0d00000001000000f7000000",
    "0200000f00000000170000000000000004000000180000000000000008000000050100000200000f000000000b000000",
    "000000002000000013000000000000002000000000696e74005f5f41525241595f53495a455f545950455f5f006d6170",
    "5f65787472615f76616c75650074797065006d61705f666c616773006d61785f656e7472696573006d61705f65787472",
    "61006172656e61006b65795f73697a650076616c75655f73697a6500636f756e747300636f6e74657874007573650073",
    "6f636b6574002f746d702f68372f6f626a2f6172656e612e630020202020746f75636828266172656e61293b00202020",
    "20746f7563682826636f756e7473293b00202020207365636f6e645b315d203d2066697273743b002020202072657475",
    "726e207365636f6e645b305d3b006669727374007365636f6e64002e616464725f73706163652e31002e6d6170730000",
    "000000000000000000000000000000000000000000000000000000000300030000000000000000000000000000000000",
    "250000001200030000000000000000009000000000000000400000001100060000000000000000002000000000000000",
    "180000001100060020000000000000002000000000000000290000001100050004000000000000000800000000000000",
    "070000001100050000000000000000000400000000000000000000000000000001000000030000001800000000000000",
    "01000000040000003000000000000000010000000500000058000000000000000100000006000000002e746578740066",
    "69727374002e72656c736f636b657400636f756e7473002e6d61707300757365007365636f6e64002e73747274616200",
    "2e73796d746162006172656e61002e425446002e616464725f73706163652e3100000000000000000000000000000000",
    "000000000000000000000000000000000000000000000000000000000000000000000000000000000000000000000000",
    "000000000000000030000000030000000000000000000000000000000000000068050000000000005900000000000000",
    "000000000000000001000000000000000000000000000000010000000100000006000000000000000000000000000000",
    "400000000000000000000000000000000000000000000000040000000000000000000000000000001100000001000000",
    "060000000000000000000000000000004000000000000000900000000000000000000000000000000800000000000000",
    "00000000000000000d000000090000004000000000000000000000000000000028050000000000004000000000000000",
    "0800000003000000080000000000000010000000000000004b0000000100000003000000000000000000000000000000",
    "d0000000000000000c000000000000000000000000000000040000000000000000000000000000001f00000001000000",
    "03000000000000000000000000000000e000000000000000400000000000000000000000000000000800000000000000",
    "000000000000000046000000010000000000000000000000000000000000000020010000000000005f03000000000000",
    "000000000000000004000000000000000000000000000000380000000200000000000000000000000000000000000000",
    "8004000000000000a800000000000000010000000200000008000000000000001800000000000000",
];

/// A field of the object: its offset, its size in bytes, and its new value.
type Field = (usize, usize, u64);

/// The numbers that the members of `arena` and `counts` spell: the types, the flags, the number of pages.
const ARENA_TYPE: usize = 0x168;
const ARENA_FLAGS: usize = 0x19c;
const COUNTS_TYPE: usize = 0x248;

/// The name `map_flags` among the strings of `.BTF`, and `pinning` with its zero byte.
const FLAGS_NAME: usize = 0x3a2;
const PINNING: u64 = 0x0067_6e69_6e6e_6970;

/// The header of the section `.addr_space.1`, with its type, its flags, its offset and its size.
const HEADER: usize = 0x708;
const SECTION_TYPE: usize = HEADER + 4;
const SECTION_FLAGS: usize = HEADER + 8;
const SECTION_SIZE: usize = HEADER + 32;

/// The bytes of a page.
const PAGE: u32 = 4096;

/// The bytes of the object with some fields changed.
fn object_bytes(alloc: Global, changes: &[Field]) -> Result<Vec<u8>, AllocError> {
    let mut bytes = bytes_of(alloc, &OBJECT)?;
    for (offset, width, value) in changes {
        let numbers = value.to_le_bytes();
        for (byte, slot) in numbers
            .iter()
            .zip(bytes.iter_mut().skip(*offset).take(*width))
        {
            *slot = *byte;
        }
    }
    Ok(bytes)
}

/// What is asked of the object of a file after its maps are completed.
#[derive(Clone, Copy)]
enum Question {
    /// The arena, and the variables.
    Arena,
    /// The slots of the function, after the descriptors 5 and 6 are written.
    Slots,
}

/// A question about the object of a file with pages of a size.
#[derive(Drop)]
struct Asked<'a> {
    alloc: Global,
    file: &'a [u8],
    page_size: u32,
    question: Question,
}

/// Answers as texts.
#[derive(Clone, Copy)]
struct AsText(Global);

impl Listener for AsText {
    type Told = Result<String, AllocError>;

    fn hears<T: Debug, E: Debug>(&self, answer: &Result<T, E>) -> Result<String, AllocError> {
        format!(in self.0; "{answer:?}")
    }
}

/// The arena of an object, and its variables.
fn arena_lines(alloc: Global, object: &Object) -> Result<String, AllocError> {
    let mut text = String::new(alloc);
    match arena_of(object) {
        Some(arena) => {
            let (map, name) = (arena.map, arena.name);
            let (section, data) = (map.section_index, map.bytes.as_slice());
            let (pages, extra) = (map.def.max_entries, map.def.map_extra);
            writeln!(text, "{name} {pages} pages at {extra:#x} section {section} {data:?}")?;
        }
        None => writeln!(text, "no arena")?,
    }
    for variable in object.variables()?.as_slice() {
        let (name, map) = (variable.name, variable.map);
        writeln!(text, "{name} {map} {} {}", variable.offset, variable.size)?;
    }
    Ok(text)
}

/// The loads of slots, by their source registers and both immediates.
fn load_lines(alloc: Global, slots: &[bpf_insn]) -> Result<String, AllocError> {
    let mut text = String::new(alloc);
    for (number, slot) in slots.iter().enumerate() {
        if slot.code != 0x18 {
            continue;
        }
        let next = match slots.get(number + 1) {
            Some(next) => next.imm,
            None => 0,
        };
        writeln!(text, "{number} source {} {} {next}", slot.src_reg(), slot.imm)?;
    }
    Ok(text)
}

/// The loads of the function, after the descriptors are written.
fn slot_lines(alloc: Global, object: &mut Object) -> Result<String, AllocError> {
    let answer = relocate_maps(alloc, object, &[("arena", 5), ("counts", 6)], &AsText(alloc))?;
    if answer.as_str() != "Ok(())" {
        return Ok(answer);
    }
    match object.functions.get((3, 0)) {
        Some(function) => load_lines(alloc, function.instructions.as_slice()),
        None => Ok(String::new(alloc)),
    }
}

impl Asker<Object> for Asked<'_> {
    type Answer = Result<String, AllocError>;

    fn asks(self, made: &mut Object) -> Result<String, AllocError> {
        let alloc = self.alloc;
        if self.page_size > 0 {
            if let Err(error) = complete_maps(made, self.file, self.page_size) {
                return format!(in alloc; "{error}");
            }
        }
        match self.question {
            Question::Arena => arena_lines(alloc, made),
            Question::Slots => slot_lines(alloc, made),
        }
    }

    fn hears<E: Debug>(self, error: &E) -> Result<String, AllocError> {
        format!(in self.alloc; "{error:?}")
    }
}

/// Fails where the answer about the object with some fields changed, with pages of a size, isn't the wanted one. With pages of
/// size 0 the maps are not completed.
fn gives(
    alloc: Global,
    changes: &[Field],
    page_size: u32,
    question: Question,
    want: &str,
) -> Result<(), Fail> {
    let file = object_bytes(alloc, changes)?;
    let asked = Asked {
        alloc,
        file: &file,
        page_size,
        question,
    };
    let text = on_parsed(alloc, &file, ParseMode::Lenient, asked)?;
    same(text.as_str(), want)
}

#[test]
fn has_the_data_of_its_section(rt: HostRuntime) -> Result<(), Fail> {
    let want = "arena 1 pages at 0x100000000000 section 5 [7, 0, 0, 0, 8, 0, 0, 0, 9, 0, 0, 0]\n\
        first arena 0 4\nsecond arena 4 8\n";
    gives(rt.alloc(), &[], PAGE, Question::Arena, want)?;
    gives(rt.alloc(), &[], 12, Question::Arena, want)?;
    let want = "arena 1 pages at 0x100000000000 section 6 []\n";
    gives(rt.alloc(), &[], 0, Question::Arena, want)
}

#[test]
fn is_referred_to(rt: HostRuntime) -> Result<(), Fail> {
    let want = "0 source 1 5 0\n3 source 1 6 0\n6 source 2 5 4\n11 source 2 5 0\n";
    gives(rt.alloc(), &[], PAGE, Question::Slots, want)?;
    let section = "SectionNotFound { section_index: 5, symbol_index: 5, symbol_name: Some(\"second\") }";
    let want = format!(in rt.alloc(); "Err(EbpfRelocationError {{ function: \"use\", error: {section} }})")?;
    gives(rt.alloc(), &[], 0, Question::Slots, want.as_str())
}

#[test]
fn adds_immediates(rt: HostRuntime) -> Result<(), Fail> {
    let want = "0 source 1 5 0\n3 source 1 6 0\n6 source 2 5 7\n11 source 2 5 0\n";
    gives(rt.alloc(), &[(0x40 + 8 * 6 + 4, 4, 3)], PAGE, Question::Slots, want)
}

#[test]
fn needs_data(rt: HostRuntime) -> Result<(), Fail> {
    let alloc = rt.alloc();
    let want = "arena 1 pages at 0x100000000000 section 6 []\n";
    gives(alloc, &[(SECTION_TYPE, 4, 8)], PAGE, Question::Arena, want)?;
    gives(alloc, &[(SECTION_SIZE, 8, 0)], PAGE, Question::Arena, want)?;
    gives(alloc, &[(SECTION_FLAGS, 8, 5)], PAGE, Question::Arena, want)?;
    gives(alloc, &[(HEADER, 4, 76)], PAGE, Question::Arena, want)
}

#[test]
fn refuses_other_arenas(rt: HostRuntime) -> Result<(), Fail> {
    let alloc = rt.alloc();
    let want = "the map \"counts\" is a second arena, and an object has one";
    gives(alloc, &[(COUNTS_TYPE, 4, 33)], PAGE, Question::Arena, want)?;
    let without = [(COUNTS_TYPE, 4, 33), (SECTION_SIZE, 8, 0)];
    gives(alloc, &without, PAGE, Question::Arena, want)?;
    let want = "the section .addr_space.1 has variables of an arena, and no map is an arena";
    gives(alloc, &[(ARENA_TYPE, 4, 2)], PAGE, Question::Arena, want)?;
    let want = "the 12 bytes of the section .addr_space.1 do not fit the 1 pages of the arena \"arena\"";
    gives(alloc, &[], 11, Question::Arena, want)
}

#[test]
fn refuses_pinnings(rt: HostRuntime) -> Result<(), Fail> {
    let alloc = rt.alloc();
    let named = (FLAGS_NAME, 8, PINNING);
    let want = "the map \"arena\" asks for pinning 1024, and the known ones are 0 and 1";
    gives(alloc, &[named], PAGE, Question::Arena, want)?;
    let want = "the map \"arena\" asks for pinning 2, and the known ones are 0 and 1";
    gives(alloc, &[named, (ARENA_FLAGS, 4, 2)], PAGE, Question::Arena, want)?;
    let want = "arena 1 pages at 0x100000000000 section 5 [7, 0, 0, 0, 8, 0, 0, 0, 9, 0, 0, 0]\n\
        first arena 0 4\nsecond arena 4 8\n";
    gives(alloc, &[named, (ARENA_FLAGS, 4, 1)], PAGE, Question::Arena, want)?;
    gives(alloc, &[named, (ARENA_FLAGS, 4, 0)], PAGE, Question::Arena, want)
}

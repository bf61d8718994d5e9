use ebpf_base::{ByKey, ByName, Text};
use ebpf_btf::{Btf, BtfEnum, BtfError, BtfMember, Endianness};
use ebpf_core_relo::{RecordOutcomes, RecordResult, record_outcomes};
use ebpf_elf::SectionIndex;
use ebpf_btf_ext::BtfExt;
use ebpf_model::Function;
use ebpf_parts::insn::bpf_insn;
use std::alloc::{AllocError, Global};
use std::test::Fail;
use test_same::same;
use test_types::functions::function_of;
use test_types::{add_enumeration, add_int, add_pointer, add_struct, add_typedef, member};

/// The integer of four bytes that each side has as its first type.
const INT: u32 = 1;

/// The pointer that each side has as its second type.
const POINTER: u32 = 2;

/// The kinds of records that are asked here, by their numbers.
const OFFSET: u32 = 0;

const EXISTS: u32 = 2;

const SHIFT: u32 = 5;

const TYPE_SIZE: u32 = 9;

const VARIANT: u32 = 11;

/// The offset of a name; 0 of none.
fn add_name(btf: &mut Btf, name: &str) -> Result<u32, BtfError> {
    if name.is_empty() {
        return Ok(0);
    }
    btf.add_string(name)
}

/// An integer and a pointer.
fn start(alloc: Global) -> Result<Btf, BtfError> {
    let mut btf = Btf::new(alloc)?;
    add_int(&mut btf, 4, 32)?;
    add_pointer(&mut btf)?;
    Ok(btf)
}

/// Members of these names and types, one each eight bytes.
fn members_of(
    alloc: Global,
    btf: &mut Btf,
    members: &[(&str, u32)],
) -> Result<Vec<BtfMember>, BtfError> {
    let mut all = Vec::new(alloc);
    let mut offset = 0u32;
    for (name, btf_type) in members {
        let name_offset = add_name(btf, *name)?;
        all.push(member(name_offset, *btf_type, offset))?;
        offset = offset.saturating_add(64);
    }
    Ok(all)
}

/// A struct with such members.
fn add_fields_of(
    alloc: Global,
    btf: &mut Btf,
    name: &str,
    members: &[(&str, u32)],
) -> Result<u32, BtfError> {
    let all = members_of(alloc, btf, members)?;
    let name_offset = add_name(btf, name)?;
    let count = (members.len() % 1000) as u32;
    add_struct(btf, name_offset, 8 * count, &all)
}

/// An enumeration of one variant.
fn add_enum(btf: &mut Btf, name: &str, variant: &str) -> Result<u32, BtfError> {
    let variant = BtfEnum {
        name_offset: add_name(btf, variant)?,
        value: 7,
    };
    let name_offset = add_name(btf, name)?;
    add_enumeration(btf, name_offset, &[variant])
}

/// Adds numbers to bytes, the low byte first.
fn add_numbers(bytes: &mut Vec<u8>, numbers: &[u32]) -> Result<(), AllocError> {
    for number in numbers {
        bytes.extend_from_slice(&number.to_le_bytes())?;
    }
    Ok(())
}

/// The `.BTF.ext` of one section of records, by the offset of its name.
fn ext_bytes(alloc: Global, section: u32, records: &[[u32; 4]]) -> Result<Vec<u8>, AllocError> {
    let count = (records.len() % 1000) as u32;
    let mut bytes = Vec::new(alloc);
    add_numbers(
        &mut bytes,
        &[0x0001_eb9f, 32, 0, 0, 0, 0, 0, 12 + 16 * count],
    )?;
    add_numbers(&mut bytes, &[16, section, count])?;
    for record in records {
        add_numbers(&mut bytes, record)?;
    }
    Ok(bytes)
}

/// Four moves, a jump, a load of 64 bits and its second slot.
fn instructions(alloc: Global) -> Result<Vec<bpf_insn>, AllocError> {
    let mut instructions = Vec::new(alloc);
    for code in [0xb7, 0xb7, 0xb7, 0xb7, 0x05, 0x18, 0x00] {
        instructions.push(bpf_insn {
            code,
            regs: 0,
            off: 0,
            imm: 1,
        })?;
    }
    Ok(instructions)
}

/// The function `p`, by its key.
fn functions(alloc: Global) -> Result<ByKey<Function>, AllocError> {
    let instructions = instructions(alloc)?;
    let name = Text::from_str(alloc, "p")?;
    let mut functions = ByKey::new(alloc);
    functions.insert((3, 0), function_of(alloc, name, instructions))?;
    Ok(functions)
}

/// The numbers of the sections, by their names.
fn sections(alloc: Global) -> Result<ByName<SectionIndex>, AllocError> {
    let mut sections = ByName::new(alloc);
    sections.insert(String::from_str(alloc, "kprobe")?, SectionIndex(3))?;
    Ok(sections)
}

/// Adds what a record comes to, in a word or two.
fn add_words(text: &mut String, answer: &RecordResult) -> Result<(), AllocError> {
    match answer {
        RecordResult::Value(outcome) => write!(text, "{:?}; ", outcome.value),
        RecordResult::Absent(absence) => write!(text, "{absence:?}; "),
        RecordResult::Refused(fault) => write!(text, "{fault:?}; "),
    }
}

/// The slots of the function that were written; none if none were.
fn written(outcomes: &RecordOutcomes) -> &[bpf_insn] {
    match outcomes.written.get((3, 0)) {
        Some(slots) => slots.as_slice(),
        None => &[],
    }
}

/// What records come to, and then the slots of the function by their codes and immediates, if some were written.
fn shown(alloc: Global, outcomes: &RecordOutcomes) -> Result<String, AllocError> {
    let mut text = String::new(alloc);
    for record in outcomes.records.iter() {
        add_words(&mut text, &record.result)?;
    }
    for slot in written(outcomes) {
        write!(text, "{:x}:{} ", slot.code, slot.imm)?;
    }
    Ok(text)
}

/// Records of section `name`, read.
fn ext_of(alloc: Global, local: &Btf, name: u32, records: &[[u32; 4]]) -> Result<BtfExt, BtfError> {
    let bytes = ext_bytes(alloc, name, records)?;
    BtfExt::parse(alloc, &bytes, Endianness::Little, local)
}

/// What records come to in the function.
fn told(
    alloc: Global,
    local: &Btf,
    ext: &BtfExt,
    target: &Btf,
) -> Result<RecordOutcomes, AllocError> {
    let functions = functions(alloc)?;
    let sections = sections(alloc)?;
    record_outcomes(alloc, &functions, &sections, local, ext, target)
}

/// What records of section `name` come to, and then the slots.
fn outcomes(
    alloc: Global,
    local: &Btf,
    target: &Btf,
    name: u32,
    records: &[[u32; 4]],
) -> Result<String, BtfError> {
    let ext = ext_of(alloc, local, name, records)?;
    let told = told(alloc, local, &ext, target)?;
    Ok(shown(alloc, &told)?)
}

/// Strings of a local side: a section and paths.
#[derive(Clone, Copy)]
struct Strings {
    section: u32,
    first: u32,
    second: u32,
    third: u32,
    whole: u32,
}

fn add_strings(btf: &mut Btf) -> Result<Strings, BtfError> {
    Ok(Strings {
        section: btf.add_string("kprobe")?,
        first: btf.add_string("0:0")?,
        second: btf.add_string("0:1")?,
        third: btf.add_string("0:2")?,
        whole: btf.add_string("0")?,
    })
}

/// Types of a local side: `s` with `a`, `b` and the struct `i`, the struct `gone`, the name `name`, the enumeration `e`.
#[derive(Clone, Copy)]
struct Types {
    fields: u32,
    gone: u32,
    name: u32,
    variants: u32,
}

fn add_fields(alloc: Global, btf: &mut Btf) -> Result<u32, BtfError> {
    let inner = add_fields_of(alloc, btf, "i", &[("x", INT)])?;
    let members = [("a", INT), ("b", INT), ("i", inner)];
    add_fields_of(alloc, btf, "s", &members)
}

fn add_types(alloc: Global, btf: &mut Btf) -> Result<Types, BtfError> {
    Ok(Types {
        fields: add_fields(alloc, btf)?,
        gone: add_fields_of(alloc, btf, "gone", &[("a", INT)])?,
        name: add_typedef(btf, "name", INT)?,
        variants: add_enum(btf, "e", "X")?,
    })
}

/// Types of a kernel in which `s` has no `a`, its `b` is a pointer in an anonymous struct, and `i` is larger; `name` is a
/// pointer, and `e` has another variant.
fn add_other_types(alloc: Global, btf: &mut Btf) -> Result<(), BtfError> {
    let large = add_fields_of(alloc, btf, "i", &[("x", INT), ("y", INT)])?;
    let unnamed = add_fields_of(alloc, btf, "", &[("b", POINTER)])?;
    let members = [("c", INT), ("", unnamed), ("i", large)];
    add_fields_of(alloc, btf, "s", &members)?;
    add_typedef(btf, "name", POINTER)?;
    add_enum(btf, "e", "Y")?;
    Ok(())
}

/// A value, the 0 of what is not there, and each reason why there is no value.
fn reasons(at: Strings, of: Types) -> [[u32; 4]; 8] {
    [
        [0, of.fields, at.third, OFFSET],
        [8, of.fields, at.first, EXISTS],
        [16, of.fields, at.first, OFFSET],
        [16, of.fields, at.second, OFFSET],
        [16, of.gone, at.first, OFFSET],
        [16, of.name, at.whole, TYPE_SIZE],
        [16, of.variants, at.whole, VARIANT],
        [16, of.fields, at.third, SHIFT],
    ]
}

/// What these records come to, of types that are added.
fn reasons_between(alloc: Global, local: &mut Btf, target: &Btf) -> Result<String, BtfError> {
    let at = add_strings(local)?;
    let of = add_types(alloc, local)?;
    outcomes(alloc, local, target, at.section, &reasons(at, of))
}

fn told_reasons(alloc: Global) -> Result<String, BtfError> {
    let mut local = start(alloc)?;
    let mut target = start(alloc)?;
    add_other_types(alloc, &mut target)?;
    reasons_between(alloc, &mut local, &target)
}

#[test]
fn tells_why_there_is_no_value(rt: HostRuntime) -> Result<(), Fail> {
    let told = told_reasons(rt.alloc())?;
    let want =
        "Some(16); Some(0); NoMember; MemberOfAnotherKind; NoType; TypeOfAnotherKind; NoEnumerator; NoValue; \
        b7:16 b7:0 85:195896080 b7:1 5:1 18:1 0:1 ";
    same(told.as_str(), want)
}

/// Types of a kernel: one named `s` without `i`, one whose `i` has an `x` that doesn't fit, and one whose `i` is empty.
fn add_three_types(alloc: Global, btf: &mut Btf) -> Result<(), BtfError> {
    let other = add_fields_of(alloc, btf, "i", &[("x", POINTER)])?;
    let empty = add_fields_of(alloc, btf, "i", &[])?;
    for (name, member, btf_type) in [
        ("s", "j", INT),
        ("s___2", "i", other),
        ("s___3", "i", empty),
    ] {
        add_fields_of(alloc, btf, name, &[(member, btf_type)])?;
    }
    Ok(())
}

/// What a field comes to, on the way to which the second of three types comes as far as the third.
fn furthest_between(alloc: Global, local: &mut Btf, target: &Btf) -> Result<String, BtfError> {
    let section = local.add_string("kprobe")?;
    let path = local.add_string("0:2:0")?;
    let fields = add_fields(alloc, local)?;
    outcomes(alloc, local, target, section, &[[0, fields, path, OFFSET]])
}

fn told_furthest(alloc: Global) -> Result<String, BtfError> {
    let mut local = start(alloc)?;
    let mut target = start(alloc)?;
    add_three_types(alloc, &mut target)?;
    furthest_between(alloc, &mut local, &target)
}

#[test]
fn tells_of_the_furthest_type(rt: HostRuntime) -> Result<(), Fail> {
    let told = told_furthest(rt.alloc())?;
    let want = "MemberOfAnotherKind; 85:195896080 b7:1 b7:1 b7:1 5:1 18:1 0:1 ";
    same(told.as_str(), want)
}

/// Records behind refusals: of a jump, of a path that is none, of no function.
fn behind_refusals(fields: u32, path: u32, wrong: u32) -> [[u32; 4]; 5] {
    [
        [0, fields, path, OFFSET],
        [32, fields, path, OFFSET],
        [0, fields, wrong, OFFSET],
        [800, fields, path, OFFSET],
        [40, fields, path, OFFSET],
    ]
}

/// What these records come to, of types that are added.
fn behind_between(alloc: Global, local: &mut Btf, target: &Btf) -> Result<String, BtfError> {
    let at = add_strings(local)?;
    let wrong = local.add_string("0:x")?;
    let fields = add_fields(alloc, local)?;
    let records = behind_refusals(fields, at.second, wrong);
    outcomes(alloc, local, target, at.section, &records)
}

fn told_behind(alloc: Global) -> Result<String, BtfError> {
    let mut local = start(alloc)?;
    let mut target = start(alloc)?;
    add_fields_of(alloc, &mut target, "s", &[("b", INT)])?;
    behind_between(alloc, &mut local, &target)
}

#[test]
fn goes_on_behind_a_refusal(rt: HostRuntime) -> Result<(), Fail> {
    let told = told_behind(rt.alloc())?;
    let want = "Some(0); \
        InvalidInstruction { relocation_number: 1, index: 4, error: \"code 0x05 can't carry 0\" }; \
        InvalidAccessString { access_str: \"0:x\" }; FunctionNotFound; Some(0); \
        b7:0 b7:1 b7:1 b7:1 5:1 18:0 0:0 ";
    same(told.as_str(), want)
}

/// Two records of a section whose name is at an offset, or `tc`, of which there is no section.
fn of_section(alloc: Global, name: Option<u32>) -> Result<String, BtfError> {
    let mut local = start(alloc)?;
    let path = local.add_string("0")?;
    let other = local.add_string("tc")?;
    let record = [0, INT, path, TYPE_SIZE];
    let name = name.unwrap_or(other);
    outcomes(alloc, &local, &local, name, &[record, record])
}

/// Fails where these don't come to this.
fn section_gives(alloc: Global, name: Option<u32>, want: &str) -> Result<(), Fail> {
    let told = of_section(alloc, name)?;
    same(told.as_str(), want)
}

#[test]
fn refuses_each_record_of_a_missing_section(rt: HostRuntime) -> Result<(), Fail> {
    section_gives(rt.alloc(), None, "SectionNotFound; SectionNotFound; ")?;
    let want =
        "BtfError(InvalidStringOffset { offset: 4000 }); BtfError(InvalidStringOffset { offset: 4000 }); ";
    section_gives(rt.alloc(), Some(4000), want)
}

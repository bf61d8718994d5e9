use crate::parts::{OFFSET, TARGET_ID, add_fields, add_named_int, object_of};
use ebpf_base::Items;
use ebpf_btf::{Btf, BtfError};
use ebpf_elf::SectionIndex;
use ebpf_least_types::{kernel_id_uses, least_types};
use ebpf_model::{ExternDesc, Program};
use ebpf_object::Object;
use ebpf_parts::ProgramSection;
use std::alloc::{AllocError, Global};
use std::slice;
use std::test::Fail;
use test_same::same;

/// Types of both sides: an integer and a struct.
fn types(alloc: Global) -> Result<Btf, BtfError> {
    let mut btf = Btf::new(alloc)?;
    add_named_int(&mut btf, "int", 4)?;
    add_fields(alloc, &mut btf, "s", &[("a", 1)])?;
    Ok(btf)
}

/// An object whose second relocation asks for an id.
fn asks_for_id(alloc: Global) -> Result<Object, BtfError> {
    let local = types(alloc)?;
    object_of(alloc, local, &[(2, "0:0", OFFSET), (2, "0", TARGET_ID)])
}

/// Adds an extern.
fn add_extern(
    alloc: Global,
    object: &mut Object,
    name: &str,
    is_typed: bool,
) -> Result<(), AllocError> {
    let known = ExternDesc {
        btf_id: 1,
        is_typed,
        is_weak: false,
        kernel_btf_id: None,
        ksym_addr: None,
        is_resolved: false,
    };
    object
        .externs
        .insert(String::from_str(alloc, name)?, known)?;
    Ok(())
}

/// Adds a section, and a program in it.
fn add_program(
    alloc: Global,
    object: &mut Object,
    name: &str,
    section: &str,
    index: usize,
) -> Result<(), AllocError> {
    let program = Program {
        license: Items::new(alloc),
        kernel_version: None,
        section: ProgramSection::Other,
        section_index: index,
        address: 0,
    };
    object
        .programs
        .insert(String::from_str(alloc, name)?, program)?;
    object
        .section_infos
        .insert(String::from_str(alloc, section)?, SectionIndex(index))?;
    Ok(())
}

/// An object with two externs and five programs.
fn asks_for_many(alloc: Global) -> Result<Object, BtfError> {
    let mut object = asks_for_id(alloc)?;
    add_extern(alloc, &mut object, "typed", true)?;
    add_extern(alloc, &mut object, "plain", false)?;
    add_program(alloc, &mut object, "hook", "?lsm/file_open", 4)?;
    add_program(alloc, &mut object, "at", "tp_btf/sched_switch", 8)?;
    add_program(alloc, &mut object, "none", "fentry", 5)?;
    add_program(alloc, &mut object, "other", "freplace/f", 6)?;
    add_program(alloc, &mut object, "probe", "kprobe/f", 7)?;
    Ok(object)
}

/// What in an object needs ids, as text.
fn uses_of(alloc: Global, object: &Object) -> Result<String, AllocError> {
    let mut text = String::new(alloc);
    for needed in kernel_id_uses(alloc, object)?.iter() {
        write!(&mut text, "{needed:?}; ")?;
    }
    Ok(text)
}

#[test]
fn lists_what_needs_ids(rt: HostRuntime) -> Result<(), Fail> {
    let alloc = rt.alloc();
    let object = asks_for_many(alloc)?;
    let want = "Record { section_name: 0, number: 1 }; Extern { name: \"typed\" }; \
        Target { program: \"at\", target: \"btf_trace_sched_switch\" }; \
        Target { program: \"hook\", target: \"bpf_lsm_file_open\" }; ";
    same(uses_of(alloc, &object)?.as_str(), want)
}

/// The error of objects, or the number of types.
fn strict(alloc: Global, objects: &[Object]) -> Result<String, BtfError> {
    let kernel = types(alloc)?;
    match least_types(alloc, objects, &kernel) {
        Ok(types) => Ok(format!(in alloc; "{} types", types.len())?),
        Err(error) => Ok(format!(in alloc; "{error}")?),
    }
}

/// An object with a relocation that asks for no id.
fn asks_for_none(alloc: Global) -> Result<Object, BtfError> {
    let local = types(alloc)?;
    object_of(alloc, local, &[(2, "0:0", OFFSET)])
}

#[test]
fn refuses_the_first_use_of_an_id(rt: HostRuntime) -> Result<(), Fail> {
    let alloc = rt.alloc();
    let objects = [asks_for_none(alloc)?, asks_for_id(alloc)?];
    same(
        strict(alloc, &objects)?.as_str(),
        "object 1 needs the kernel's id of a type in CO-RE relocation 1, and the least types have other ids",
    )?;
    let sound = asks_for_none(alloc)?;
    same(strict(alloc, slice::from_ref(&sound))?.as_str(), "3 types")
}

//! The list of externs.

use super::asked::{Question, ask};
use super::objects::{kconfig_object, object_with};
use ebpf_base::{ByIndex, Items};
use ebpf_btf::{Btf, BtfError};
use ebpf_kconfig::{KconfigError, KconfigExtern, kconfig};
use ebpf_object::Object;
use std::alloc::{AllocError, Global};
use std::test::Fail;
use test_same::same;
use test_types::externs::{Extern, add_externs, kconfig_types};

/// Externs of each type, in the order of their entries.
const EACH_TYPE: [Extern; 10] = [
    ("CONFIG_BOOL", 1, false),
    ("CONFIG_CHAR", 2, false),
    ("CONFIG_BYTE", 3, true),
    ("CONFIG_SHORT", 4, false),
    ("CONFIG_INT", 5, false),
    ("CONFIG_LONG", 6, false),
    ("CONFIG_TRISTATE", 7, false),
    ("CONFIG_WIDE_TRISTATE", 8, false),
    ("CONFIG_STRING", 10, true),
    ("LINUX_KERNEL_VERSION", 13, false),
];

const EACH_TYPE_TEXT: &'static str = "\"CONFIG_BOOL\" Bool\n\
    \"CONFIG_CHAR\" Char { signed: true }\n\
    \"CONFIG_BYTE\" Char { signed: false } weak\n\
    \"CONFIG_SHORT\" Integer { size: 2, signed: true }\n\
    \"CONFIG_INT\" Integer { size: 4, signed: true }\n\
    \"CONFIG_LONG\" Integer { size: 8, signed: false }\n\
    \"CONFIG_TRISTATE\" Tristate { size: 4 }\n\
    \"CONFIG_WIDE_TRISTATE\" Tristate { size: 8 }\n\
    \"CONFIG_STRING\" CharArray { len: 20 } weak\n\
    \"LINUX_KERNEL_VERSION\" Integer { size: 4, signed: true }\n";

/// A weak extern alone, by its name and type, and the list.
const ALONE: [(&'static str, u32, &'static str); 8] = [
    ("CONFIG_X", 9, "UnsupportedType { name: \"CONFIG_X\" }"),
    ("CONFIG_X", 11, "UnsupportedType { name: \"CONFIG_X\" }"),
    ("CONFIG_X", 12, "UnsupportedType { name: \"CONFIG_X\" }"),
    ("CONFIG_X", 0, "UnsupportedType { name: \"CONFIG_X\" }"),
    ("CONFIG_X", 99, "UnsupportedType { name: \"CONFIG_X\" }"),
    (
        "LINUX_X",
        5,
        "\"LINUX_X\" Integer { size: 4, signed: true } weak\n",
    ),
    ("CONFIGX", 5, "UnknownName { name: \"CONFIGX\" }"),
    ("", 5, "UnknownName { name: \"\" }"),
];

/// A line for each extern.
fn shown(alloc: Global, externs: &[KconfigExtern]) -> Result<String, AllocError> {
    let mut text = String::new(alloc);
    for wanted in externs {
        let weak = if wanted.is_weak { " weak" } else { "" };
        writeln!(text, "{:?} {:?}{weak}", wanted.name, wanted.kind)?;
    }
    Ok(text)
}

/// The externs of an object.
fn externs_of(object: &Object) -> Result<Items<KconfigExtern>, KconfigError> {
    kconfig(object)
}

/// These externs, or why there are none.
fn outcome(
    alloc: Global,
    listed: Result<Items<KconfigExtern>, KconfigError>,
) -> Result<String, AllocError> {
    match listed {
        Ok(externs) => shown(alloc, externs.as_slice()),
        Err(error) => format!(in alloc; "{error:?}"),
    }
}

/// Fails where the list of an object isn't this.
pub fn lists(alloc: Global, object: &Object, want: &str) -> Result<(), Fail> {
    let text = outcome(alloc, externs_of(object))?;
    same(text.as_str(), want)
}

/// Fails where the list of an object with these externs isn't this.
fn have(alloc: Global, externs: &[Extern], want: &'static str) -> Result<(), Fail> {
    ask(alloc, kconfig_object(alloc, externs), Question::Lists(want))
}

#[test]
fn lists_externs_of_each_type(rt: HostRuntime) -> Result<(), Fail> {
    have(rt.alloc(), &EACH_TYPE, EACH_TYPE_TEXT)
}

#[test]
fn refuses_other_types_and_names(rt: HostRuntime) -> Result<(), Fail> {
    for (name, btf_type, want) in ALONE.iter() {
        have(rt.alloc(), &[(*name, *btf_type, true)], want)?;
    }
    Ok(())
}

/// Sections of one extern each, in their order.
const SECTIONS: [(&str, Extern); 3] = [
    (".data", ("CONFIG_NO", 5, false)),
    (".kconfig", ("CONFIG_A", 5, false)),
    (".kconfig", ("CONFIG_B", 5, false)),
];

/// Types with these sections.
fn types_with_sections(alloc: Global) -> Result<Btf, BtfError> {
    let mut types = kconfig_types(alloc)?;
    for (section, wanted) in SECTIONS.iter() {
        add_externs(alloc, &mut types, section, &[*wanted])?;
    }
    Ok(types)
}

/// Fails where the list of an object of types alone isn't this.
fn types_have(alloc: Global, types: Option<Btf>, want: &'static str) -> Result<(), Fail> {
    let object = object_with(alloc, types, ByIndex::new(alloc));
    ask(alloc, Ok(object), Question::Lists(want))
}

#[test]
fn reads_the_first_section_of_the_name(rt: HostRuntime) -> Result<(), Fail> {
    let alloc = rt.alloc();
    let want = "\"CONFIG_A\" Integer { size: 4, signed: true }\n";
    types_have(alloc, Some(types_with_sections(alloc)?), want)?;
    types_have(alloc, Some(kconfig_types(alloc)?), "")?;
    types_have(alloc, None, "")
}

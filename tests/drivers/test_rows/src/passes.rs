//! The passes over an object, each with what it answers and writes.

use crate::prepared::descriptors;
use crate::tables::put_table;
use ebpf_btf::{Btf, Endianness};
use ebpf_base::Items;
use ebpf_object::Object;
use ebpf_object::relocation::NamedSlot;
use std::alloc::{AllocError, Global};
use std::fmt::Debug;
use test_bare_calls::{
    Asker, Listener, on_types, relocate_calls, relocate_externs, relocate_maps, relocate_types,
    sanitize_functions,
};
use test_cases::{Action, Files, no_action};
use test_tables::{put_immediates, set_externs, with_slots};

/// An object that is to be relocated to types.
#[derive(Drop)]
struct Relocating<'a> {
    alloc: Global,
    object: &'a mut Object,
}

impl<'a> Asker<Btf> for Relocating<'a> {
    type Answer = Result<String, AllocError>;

    fn asks(self, types: &mut Btf) -> Result<String, AllocError> {
        let answer = relocate_types(self.alloc, self.object, types)?;
        with_slots(self.alloc, answer, &self.object.functions)
    }

    fn hears<E: Debug>(self, error: &E) -> Result<String, AllocError> {
        format!(in self.alloc; "no types: {error:?}")
    }
}

/// What relocating to the types of a file answers, and the slots then.
pub fn types_relocated(
    alloc: Global,
    files: &Files,
    object: &mut Object,
    action: &Action<'_>,
) -> Result<String, AllocError> {
    let bytes = files.get(action.word(0));
    on_types(
        alloc,
        bytes,
        Endianness::Little,
        Relocating { alloc, object },
    )
}

/// The immediates of all slots, and whether the kernel was asked.
fn immediates(alloc: Global, object: &Object, asked: bool) -> Result<String, AllocError> {
    let mut text = String::new(alloc);
    put_immediates(&mut text, &object.functions)?;
    write!(text, "asked {asked}")?;
    Ok(text)
}

/// The immediates of all slots for a kernel that has the newer helpers or not, and whether it was asked for them.
pub fn sanitized(
    alloc: Global,
    object: &mut Object,
    action: &Action<'_>,
) -> Result<String, AllocError> {
    let has_newer = match action.word(0) {
        "newer" => true,
        "older" => false,
        _ => return no_action(alloc),
    };
    let asked = sanitize_functions(object, has_newer);
    immediates(alloc, object, asked)
}

/// What writing these descriptors gives, and the slots then.
fn descriptors_written(
    alloc: Global,
    object: &mut Object,
    given: &[(&str, i32)],
) -> Result<String, AllocError> {
    let answer = relocate_maps(alloc, object, given, &Shown(alloc))?;
    with_slots(alloc, answer, &object.functions)
}

/// What writing the descriptors gives that words ask for, and the slots then. The maps are the object's own.
pub fn fds_written(
    alloc: Global,
    object: &mut Object,
    action: &Action<'_>,
) -> Result<String, AllocError> {
    let given = descriptors(alloc, action.words.as_slice())?;
    descriptors_written(alloc, object, &given)
}

/// Adds slots with names, a line each behind a word.
fn put_named(
    text: &mut String,
    word: &str,
    slots: &Items<NamedSlot>,
) -> Result<(), AllocError> {
    for named in slots.iter() {
        let (section, address) = named.key;
        let (slot, name) = (named.slot, named.name.as_str());
        writeln!(text, "{word} {name} at {section} {address} slot {slot}")?;
    }
    Ok(())
}

/// What an object lacks for its programs: maps without a descriptor among those that words give, names that no map has,
/// and externs that no pass has written.
pub fn missing(
    alloc: Global,
    object: &Object,
    action: &Action<'_>,
) -> Result<String, AllocError> {
    let given = descriptors(alloc, action.words.as_slice())?;
    let mut text = String::new(alloc);
    put_named(&mut text, "map", &object.maps_without_descriptors(&given)?)?;
    let unknown = object.unknown_maps(&given)?;
    for name in unknown.iter() {
        writeln!(text, "unknown {name}")?;
    }
    put_named(&mut text, "extern", &object.unwritten_externs()?)?;
    Ok(text)
}

/// What writing the externs of an object answers, and the slots then.
pub fn known_written(alloc: Global, object: &mut Object) -> Result<String, AllocError> {
    let answer = relocate_externs(object, &Shown(alloc))?;
    with_slots(alloc, answer, &object.functions)
}

/// What writing the externs gives of which words say what is known, and the slots then.
pub fn externs_written(
    alloc: Global,
    object: &mut Object,
    action: &Action<'_>,
) -> Result<String, AllocError> {
    if !set_externs(alloc, &mut object.externs, action.words.as_slice())? {
        return no_action(alloc);
    }
    known_written(alloc, object)
}

/// What linking the programs of an object answers, and a table then.
pub fn linked(
    alloc: Global,
    object: &mut Object,
    action: &Action<'_>,
) -> Result<String, AllocError> {
    let mut text = relocate_calls(alloc, object, &Refusals(alloc))?;
    put_table(alloc, &mut text, object, action.word(0))?;
    Ok(text)
}

/// Each answer, as `{:?}` writes it.
#[derive(Clone, Copy)]
pub struct Shown(pub Global);

impl Listener for Shown {
    type Told = Result<String, AllocError>;

    fn hears<T: Debug, E: Debug>(&self, answer: &Result<T, E>) -> Result<String, AllocError> {
        format!(in self.0; "{answer:?}")
    }
}

/// A line for each refusal, and no text else.
#[derive(Clone, Copy)]
pub struct Refusals(pub Global);

impl Listener for Refusals {
    type Told = Result<String, AllocError>;

    fn hears<T: Debug, E: Debug>(&self, answer: &Result<T, E>) -> Result<String, AllocError> {
        match answer {
            Ok(_) => Ok(String::new(self.0)),
            Err(error) => format!(in self.0; "{error:?}\n"),
        }
    }
}

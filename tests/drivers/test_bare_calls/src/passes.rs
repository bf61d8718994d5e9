//! The passes over an object, and values that are written into it.

use crate::asking::{Listener, tell};
use ebpf_base::ByName;
use ebpf_object::Object;
use ebpf_object::maps::Map;
use ebpf_object::obj::Btf;
use std::alloc::{AllocError, Global};
use std::collections::{HashMap, HashSet};
use std::{io, mem};

/// Relocates the functions to a kernel's types.
pub fn relocate_btf<L: Listener>(object: &mut Object, target: &Btf, listener: &L) -> L::Told {
    listener.begins();
    tell(listener, object.relocate_btf(target))
}

/// Makes the functions fit for a kernel that has the newer helper functions or not; whether it was asked for them.
pub fn sanitize_functions(object: &mut Object, has_newer: bool) -> bool {
    let mut asked = false;
    object.sanitize_functions(|| {
        asked = true;
        has_newer
    });
    asked
}

/// A map with its name and its descriptor.
type Given<'a> = (&'a str, i32, &'a Map);

/// The maps of these names with their descriptors.
fn given<'a>(
    alloc: Global,
    maps: &'a ByName<Map>,
    descriptors: &[(&'a str, i32)],
) -> Result<Vec<Given<'a>>, AllocError> {
    let mut given = Vec::new(alloc);
    for (name, descriptor) in descriptors {
        if let Some(map) = maps.get(name) {
            given.push((*name, *descriptor, map))?;
        }
    }
    Ok(given)
}

/// Writes the descriptors of these maps in these sections.
fn write<L: Listener>(
    object: &mut Object,
    given: &[Given<'_>],
    sections: &HashSet<usize>,
    listener: &L,
) -> L::Told {
    listener.begins();
    tell(
        listener,
        object.relocate_maps(given.iter().copied(), sections),
    )
}

/// The same in all sections that hold functions.
fn write_in_each<L: Listener>(
    alloc: Global,
    object: &mut Object,
    given: &[Given<'_>],
    listener: &L,
) -> L::Told {
    match object.text_sections(alloc) {
        Ok(sections) => write(object, given, &sections, listener),
        Err(error) => tell(listener, Err::<(), AllocError>(error)),
    }
}

/// The same of those of these maps that have the names.
fn write_named<L: Listener>(
    alloc: Global,
    object: &mut Object,
    maps: &ByName<Map>,
    descriptors: &[(&str, i32)],
    listener: &L,
) -> L::Told {
    match given(alloc, maps, descriptors) {
        Ok(given) => write_in_each(alloc, object, &given, listener),
        Err(error) => tell(listener, Err::<(), AllocError>(error)),
    }
}

/// Writes the descriptors of the object's own maps, in this order. Its maps are taken out so long; a name that it lacks is
/// passed over.
pub fn relocate_maps<L: Listener>(
    alloc: Global,
    object: &mut Object,
    descriptors: &[(&str, i32)],
    listener: &L,
) -> L::Told {
    let mut maps = ByName::new(alloc);
    mem::swap(&mut object.maps, &mut maps);
    let told = write_named(alloc, object, &maps, descriptors, listener);
    mem::swap(&mut object.maps, &mut maps);
    told
}

/// Resolves the externs with lines that were read.
pub fn resolve_lines<L: Listener>(
    object: &mut Object,
    kernel: Option<&Btf>,
    lines: Vec<io::Result<String>>,
    listener: &L,
) -> L::Told {
    listener.begins();
    tell(listener, object.resolve_lines(kernel, lines.into_iter()))
}

/// Resolves the externs with bytes as a reader.
pub fn resolve_externs<L: Listener>(
    object: &mut Object,
    kernel: Option<&Btf>,
    kallsyms: &[u8],
    listener: &L,
) -> L::Told {
    listener.begins();
    tell(listener, object.resolve_externs(kernel, kallsyms))
}

/// Resolves the externs with bytes as a text.
pub fn resolve_text<L: Listener>(
    object: &mut Object,
    kernel: Option<&Btf>,
    text: &[u8],
    listener: &L,
) -> L::Told {
    listener.begins();
    tell(listener, object.resolve_text(kernel, text))
}

/// Writes what is known of the externs into the slots.
pub fn relocate_externs<L: Listener>(object: &mut Object, listener: &L) -> L::Told {
    listener.begins();
    tell(listener, object.relocate_externs())
}

/// Tells the numbers of the sections that hold functions.
pub fn text_sections<L: Listener>(alloc: Global, object: &Object, listener: &L) -> L::Told {
    listener.begins();
    tell(listener, object.text_sections(alloc))
}

/// Links the programs with what they reach in these sections.
fn link<L: Listener>(object: &mut Object, sections: &HashSet<usize>, listener: &L) -> L::Told {
    listener.begins();
    tell(listener, object.relocate_calls(sections))
}

/// Links the programs with what they reach.
pub fn relocate_calls<L: Listener>(alloc: Global, object: &mut Object, listener: &L) -> L::Told {
    match object.text_sections(alloc) {
        Ok(sections) => link(object, &sections, listener),
        Err(error) => tell(listener, Err::<(), AllocError>(error)),
    }
}

/// Tells what a program would be made of in these sections.
fn map_links<L: Listener>(
    object: &Object,
    name: &str,
    sections: &HashSet<usize>,
    listener: &L,
) -> L::Told {
    listener.begins();
    tell(listener, object.link_map(name, sections))
}

/// Tells what a program would be made of.
pub fn link_map<L: Listener>(alloc: Global, object: &Object, name: &str, listener: &L) -> L::Told {
    match object.text_sections(alloc) {
        Ok(sections) => map_links(object, name, &sections, listener),
        Err(error) => tell(listener, Err::<(), AllocError>(error)),
    }
}

/// Writes the values of variables, each with whether the object has to have it, by their names.
pub fn patch_map_data<L: Listener>(
    object: &mut Object,
    values: HashMap<&str, (&[u8], bool)>,
    listener: &L,
) -> L::Told {
    listener.begins();
    tell(listener, object.patch_map_data(values))
}

//! Type information of any size.

use std::alloc::{AllocError, Global};

/// How many types a group has.
const GROUP: u32 = 10;

/// How many groups are of a kernel's size, which has some 130,000 types.
pub const KERNEL_GROUPS: u32 = 13_000;

/// Where the names of a group stand in the strings.
#[derive(Clone, Copy)]
struct Names {
    structure: u32,
    alias: u32,
    variants: u32,
    function: u32,
}

/// Appends words.
fn put_words(bytes: &mut Vec<u8>, words: &[u32]) -> Result<(), AllocError> {
    for word in words {
        bytes.extend_from_slice(&word.to_le_bytes())?;
    }
    Ok(())
}

/// The number of some bytes; the greatest word where they are more.
fn length_of(bytes: &[u8]) -> u32 {
    u32::try_from(bytes.len()).unwrap_or(u32::MAX)
}

/// The bytes of types and then strings, after a header of 24 bytes.
fn with_header(alloc: Global, types: &[u8], strings: &[u8]) -> Result<Vec<u8>, AllocError> {
    let length = length_of(types);
    let mut bytes = Vec::new(alloc);
    put_words(
        &mut bytes,
        &[0x0001_eb9f, 24, 0, length, length, length_of(strings)],
    )?;
    bytes.extend_from_slice(types)?;
    bytes.extend_from_slice(strings)?;
    Ok(bytes)
}

/// Appends a text with a number and a zero byte, and gives the text's offset.
fn put_name(strings: &mut String, text: &str, number: u32) -> Result<u32, AllocError> {
    let offset = length_of(strings.as_bytes());
    write!(strings, "{text}_{number}\0")?;
    Ok(offset)
}

/// Appends the names of a group.
fn put_names(strings: &mut String, group: u32) -> Result<Names, AllocError> {
    let structure = put_name(strings, "structure_with_members", group)?;
    let alias = put_name(strings, "name_of_the_structure_t", group)?;
    let variants = put_name(strings, "enumeration_of_variants", group)?;
    let function = put_name(strings, "function_on_the_structure", group)?;
    Ok(Names {
        structure,
        alias,
        variants,
        function,
    })
}

/// The words of an INT, a STRUCT with six members, PTR and CONST to it, and PTR to that, from id `first` on.
fn structure_words(names: &Names, first: u32) -> [u32; 34] {
    let name = names.structure;
    let structure = first.wrapping_add(1);
    let pointer = first.wrapping_add(2);
    let constant = first.wrapping_add(3);
    [
        1, 0x1000000, 4, 32, //
        name, 0x4000006, 32, //
        5, first, 0, 5, first, 32, 5, pointer, 64, //
        5, pointer, 128, 5, first, 192, 5, first, 224, //
        0, 0x2000000, structure, //
        0, 0xa000000, structure, //
        0, 0x2000000, constant, //
    ]
}

/// The words of a TYPEDEF of the STRUCT, an ARRAY, an ENUM with four variants, a FUNC_PROTO and a FUNC, after the
/// five types from id `first` on.
fn function_words(names: &Names, first: u32) -> [u32; 32] {
    let (alias, variants, function) = (names.alias, names.variants, names.function);
    let structure = first.wrapping_add(1);
    let pointer = first.wrapping_add(4);
    let prototype = first.wrapping_add(8);
    [
        alias, 0x8000000, structure, //
        0, 0x3000000, 0, structure, first, 16, //
        variants, 0x6000004, 4, 5, 0, 5, 1, 5, 2, 5, 3, //
        0, 0xd000003, first, 5, pointer, 5, first, 5, first, //
        function, 0xc000001, prototype, //
    ]
}

/// The bytes of type information with ten types for each of so many groups, from id 1 on: in the group `g` an INT
/// `int`, a STRUCT `structure_with_members_g` of 32 bytes, PTR, CONST and PTR over it, a TYPEDEF, an ARRAY, an ENUM, a
/// FUNC_PROTO and a FUNC. Little endian.
pub fn many_types(alloc: Global, groups: u32) -> Result<Vec<u8>, AllocError> {
    let mut types = Vec::new(alloc);
    let mut strings = String::from_str(alloc, "\0int\0member\0")?;
    let mut first = 1u32;
    for group in 0..groups {
        let names = put_names(&mut strings, group)?;
        put_words(&mut types, &structure_words(&names, first))?;
        put_words(&mut types, &function_words(&names, first))?;
        first = first.wrapping_add(GROUP);
    }
    with_header(alloc, &types, strings.as_bytes())
}

use ebpf_base::Items;
use ebpf_btf::{
    Btf, BtfError, BtfType, Endianness, Enum64Fallback, Enum64VariantFallback, Rows, UnionFallback,
};
use std::alloc::{AllocError, Global};
use std::test::Fail;
use test_same::{same, same_bytes, same_number};
use test_types::member;

/// What `new` makes, in little-endian words.
const LITTLE_VOID: [u8; 25] = [
    0x9f, 0xeb, 1, 0, 24, 0, 0, 0, 0, 0, 0, 0, 0, 0, 0, 0, 0, 0, 0, 0, 1, 0, 0, 0, 0,
];

/// An int of 4 bytes named `int`, the type 1, in big-endian words.
const BIG_INT: [u8; 45] = [
    0xeb, 0x9f, 1, 0, 0, 0, 0, 24, 0, 0, 0, 0, 0, 0, 0, 16, 0, 0, 0, 16, 0, 0, 0, 5, // header
    0, 0, 0, 1, 1, 0, 0, 0, 0, 0, 0, 4, 0, 0, 0, 32, // int
    0, b'i', b'n', b't', 0,
];

/// The same with a STRUCT `s` of two bit fields behind it.
const BIG_STRUCT: [u8; 83] = [
    0xeb, 0x9f, 1, 0, 0, 0, 0, 24, 0, 0, 0, 0, 0, 0, 0, 52, 0, 0, 0, 52, 0, 0, 0, 7, // header
    0, 0, 0, 1, 1, 0, 0, 0, 0, 0, 0, 4, 0, 0, 0, 32, // int
    0, 0, 0, 5, 0x84, 0, 0, 2, 0, 0, 0, 8, // STRUCT
    0, 0, 0, 1, 0, 0, 0, 1, 3, 0, 0, 0, // 3 bits at 0
    0, 0, 0, 5, 0, 0, 0, 1, 7, 0, 1, 2, // 7 bits at 0x102
    0, b'i', b'n', b't', 0, b's', 0,
];

/// The same two types in little-endian words. The header has four more bytes, the strings stand before the types, and
/// the types end with the file.
const LITTLE_STRUCT: [u8; 88] = [
    0x9f, 0xeb, 1, 0, 28, 0, 0, 0, 8, 0, 0, 0, 52, 0, 0, 0, 0, 0, 0, 0, 7, 0, 0, 0, // header
    0xff, 0xff, 0xff, 0xff, // more of it
    0, b'i', b'n', b't', 0, b's', 0, 0xff, // strings
    1, 0, 0, 0, 0, 0, 0, 1, 4, 0, 0, 0, 32, 0, 0, 0, // int
    5, 0, 0, 0, 2, 0, 0, 0x84, 8, 0, 0, 0, // STRUCT
    1, 0, 0, 0, 1, 0, 0, 0, 0, 0, 0, 3, // 3 bits at 0
    5, 0, 0, 0, 1, 0, 0, 0, 2, 1, 0, 7, // 7 bits at 0x102
];

const INT_TEXT: &str = "Unknown\nInt { name_offset: 1, size: 4, int_data: 32 }\n";

const STRUCT_TEXT: &str = "Unknown\nInt { name_offset: 1, size: 4, int_data: 32 }\n\
    Struct { name_offset: 5, size: 8, kind_flag: true, members: [\
    BtfMember { name_offset: 1, btf_type: 1, offset: 50331648 }, \
    BtfMember { name_offset: 5, btf_type: 1, offset: 117440770 }] }\n";

/// Of a UNION that was no enumeration.
const PLAIN_TEXT: &str = "Unknown\nUnion { name_offset: 0, size: 8, kind_flag: false, \
    members: [BtfMember { name_offset: 0, btf_type: 1, offset: 0 }], enum64_fallback: None }\n";

/// Of a UNION that was one.
const FALLBACK_TEXT: &str = "Unknown\nUnion { name_offset: 0, size: 8, kind_flag: false, \
    members: [BtfMember { name_offset: 0, btf_type: 1, offset: 0 }], \
    enum64_fallback: Some(Enum64Fallback { signed: true, \
    variants: [Enum64VariantFallback { name_offset: 0, value: 4294967298 }] }) }\n";

/// A line for each type.
fn shown(alloc: Global, btf: &Btf) -> Result<String, AllocError> {
    let mut text = String::new(alloc);
    for ty in btf.types() {
        writeln!(text, "{ty:?}")?;
    }
    Ok(text)
}

/// The types of a file, or why there are none.
fn outcome(alloc: Global, read: Result<Btf, BtfError>) -> Result<String, AllocError> {
    match read {
        Ok(btf) => shown(alloc, &btf),
        Err(error) => format!(in alloc; "{error:?}"),
    }
}

/// Whether these types are these lines.
fn are_shown(alloc: Global, btf: &Btf, want: &str) -> Result<(), Fail> {
    let text = shown(alloc, btf)?;
    same(text.as_str(), want)
}

/// Whether these types are written as these bytes.
fn are_written(alloc: Global, btf: &Btf, want: &[u8]) -> Result<(), Fail> {
    let bytes = btf.to_bytes(alloc)?;
    same_bytes(bytes.as_slice(), want)
}

/// Adds the STRUCT of the files above, which gets an id.
fn adds_struct(btf: &mut Btf, want: u64) -> Result<(), Fail> {
    let members = [member(1, 1, 0x300_0000), member(5, 1, 0x700_0102)];
    let id = btf.add_type(&BtfType::Struct {
        name_offset: 5,
        size: 8,
        kind_flag: true,
        members: Rows::of(&members),
    })?;
    same_number(u64::from(id), want)
}

/// Adds a UNION, which gets an id.
fn adds_union(btf: &mut Btf, fallback: Option<&Enum64Fallback>, want: u64) -> Result<(), Fail> {
    let members = [member(0, 1, 0)];
    let id = btf.add_type(&BtfType::Union {
        name_offset: 0,
        size: 8,
        kind_flag: false,
        members: Rows::of(&members),
        enum64_fallback: UnionFallback::new(fallback),
    })?;
    same_number(u64::from(id), want)
}

/// Adds the name of the STRUCT, which stands at the fifth byte of the strings.
fn adds_name(btf: &mut Btf) -> Result<(), Fail> {
    let offset = btf.add_string("s")?;
    same_number(u64::from(offset), 5)
}

/// Whether these types are the same when they are written and read again.
fn are_read_again(alloc: Global, btf: &Btf, order: Endianness, want: &str) -> Result<(), Fail> {
    let again = Btf::from_vec(btf.to_bytes(alloc)?, order)?;
    are_shown(alloc, &again, want)?;
    same_bytes(again.strings(), btf.strings())
}

#[test]
fn writes_what_was_added_in_big_endian_words(rt: HostRuntime) -> Result<(), Fail> {
    let alloc = rt.alloc();
    let mut btf = Btf::parse(alloc, &BIG_INT, Endianness::Big)?;
    are_shown(alloc, &btf, INT_TEXT)?;
    are_written(alloc, &btf, BIG_INT.as_slice())?;
    adds_name(&mut btf)?;
    adds_struct(&mut btf, 2)?;
    are_written(alloc, &btf, BIG_STRUCT.as_slice())?;
    are_read_again(alloc, &btf, Endianness::Big, STRUCT_TEXT)
}

/// Whether a file whose types have a length is read so, cut to a length, whether it is copied or taken over.
fn is_read(alloc: Global, types_length: u8, length: usize, want: &str) -> Result<(), Fail> {
    let mut file = LITTLE_STRUCT.as_slice().to_vec(alloc)?;
    file.truncate(length);
    if let Some(byte) = file.get_mut(12) {
        *byte = types_length;
    }
    let parsed = outcome(alloc, Btf::parse(alloc, &file, Endianness::Little))?;
    same(parsed.as_str(), want)?;
    let taken = outcome(alloc, Btf::from_vec(file, Endianness::Little))?;
    same(taken.as_str(), want)
}

#[test]
fn reads_types_up_to_the_last_byte(rt: HostRuntime) -> Result<(), Fail> {
    let alloc = rt.alloc();
    for (types_length, length, want) in [
        (52, 88, STRUCT_TEXT),
        (53, 88, "InvalidHeader"),
        (52, 87, "InvalidHeader"),
        (51, 88, "InvalidTypeInfo"),
        (51, 87, "InvalidTypeInfo"),
        (16, 88, INT_TEXT),
        (0, 36, "Unknown\n"),
    ] {
        is_read(alloc, types_length, length, want)?;
    }
    Ok(())
}

/// Takes the last types and strings away.
fn shorten(btf: &mut Btf, types: usize, strings: usize) {
    if types > 0 {
        btf.truncate(types, strings);
    }
}

/// Whether both have the same types, and are written alike.
fn are_alike(alloc: Global, one: &Btf, other: &Btf) -> Result<(), Fail> {
    let text = shown(alloc, one)?;
    are_shown(alloc, other, text.as_str())?;
    let bytes = one.to_bytes(alloc)?;
    are_written(alloc, other, bytes.as_slice())
}

#[test]
fn takes_a_file_over_as_it_copies_one(rt: HostRuntime) -> Result<(), Fail> {
    let alloc = rt.alloc();
    let mut parsed = Btf::parse(alloc, &LITTLE_STRUCT, Endianness::Little)?;
    let mut taken = Btf::from_vec(LITTLE_STRUCT.as_slice().to_vec(alloc)?, Endianness::Little)?;
    same_bytes(taken.strings(), b"\0int\0s\0".as_slice())?;
    adds_struct(&mut parsed, 3)?;
    adds_struct(&mut taken, 3)?;
    are_alike(alloc, &parsed, &taken)?;
    shorten(&mut taken, 2, 5);
    are_shown(alloc, &taken, INT_TEXT)?;
    adds_name(&mut taken)?;
    adds_struct(&mut taken, 2)?;
    are_shown(alloc, &taken, STRUCT_TEXT)
}

/// What a UNION was: an enumeration of 64 bits with one variant.
fn fallback(alloc: Global) -> Result<Enum64Fallback, AllocError> {
    let mut variants = Vec::new(alloc);
    variants.push(Enum64VariantFallback {
        name_offset: 0,
        value: 0x1_0000_0002,
    })?;
    Ok(Enum64Fallback {
        signed: true,
        variants: Items::from_vec(variants),
    })
}

/// Whether a copy of these types is these lines.
fn is_copied(alloc: Global, btf: &Btf, want: &str) -> Result<(), Fail> {
    let copy = btf.clone()?;
    are_shown(alloc, &copy, want)
}

/// Whether these types can't be written.
fn are_too_large(alloc: Global, btf: &Btf) -> Result<(), Fail> {
    match btf.to_bytes(alloc) {
        Err(BtfError::TooLarge) => Ok(()),
        _ => Err(Fail::new("no refusal")),
    }
}

/// Adds a UNION that was an enumeration and one that wasn't, takes the second away, and looks at what is left.
fn keeps_a_fallback(alloc: Global, btf: &mut Btf) -> Result<(), Fail> {
    let fallback = fallback(alloc)?;
    adds_union(btf, Some(&fallback), 1)?;
    adds_union(btf, None, 2)?;
    shorten(btf, 2, 1);
    are_shown(alloc, btf, FALLBACK_TEXT)?;
    is_copied(alloc, btf, FALLBACK_TEXT)?;
    are_too_large(alloc, btf)
}

/// Takes that UNION away too, and adds the other again.
fn forgets_a_fallback(alloc: Global, btf: &mut Btf) -> Result<(), Fail> {
    shorten(btf, 1, 1);
    are_written(alloc, btf, LITTLE_VOID.as_slice())?;
    adds_union(btf, None, 1)?;
    are_shown(alloc, btf, PLAIN_TEXT)?;
    are_read_again(alloc, btf, Endianness::Little, PLAIN_TEXT)
}

#[test]
fn holds_what_a_union_was_beside_its_bytes(rt: HostRuntime) -> Result<(), Fail> {
    let alloc = rt.alloc();
    let mut btf = Btf::new(alloc)?;
    keeps_a_fallback(alloc, &mut btf)?;
    forgets_a_fallback(alloc, &mut btf)
}

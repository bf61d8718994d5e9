//! Bytes that no type has a field for: FUNC's linkage, and words that a kind doesn't use.

use ebpf_btf::{
    Btf, BtfEnum, BtfEnum64, BtfParam, BtfType, DataSecEntry, Endianness, Rows, UnionFallback,
};
use std::alloc::{AllocError, Global};
use std::test::Fail;
use test_same::same_bytes;
use test_types::member;

/// The words of five types. No field of a type has the linkage, or the other numbers that the comments name.
const TYPES: [u32; 18] = [
    1, 0x0c00_0001, 5, // FUNC, of global linkage
    3, 0x0c00_0002, 5, // FUNC, of extern linkage
    1, 0x8700_0000, 0x1122_3344, // FWD of a union, with a third word
    0, 0x0300_0000, 0x5566_7788, 1, 1, 2, // ARRAY, with a third word
    0, 0x62ff_abcd, 1, // PTR, with a vlen and each of the unused bits
];

/// The number of words of the first two types.
const FRONT: usize = 6;

/// The names of the types: `f` at 1 and `g` at 3.
const STRINGS: [u8; 5] = [0, b'f', 0, b'g', 0];

/// The number of bytes of the first name, with the zero bytes on both sides.
const FRONT_STRINGS: usize = 3;

/// The fields of a header that types don't have.
#[derive(Drop)]
struct Version {
    version: u8,
    flags: u8,
}

/// Appends a number of 32 bits.
fn append_word(out: &mut Vec<u8>, order: Endianness, word: u32) -> Result<(), AllocError> {
    match order {
        Endianness::Little => out.extend_from_slice(&word.to_le_bytes()),
        Endianness::Big => out.extend_from_slice(&word.to_be_bytes()),
    }
}

/// Appends numbers of 32 bits.
fn append_words(out: &mut Vec<u8>, order: Endianness, words: &[u32]) -> Result<(), AllocError> {
    for word in words {
        append_word(out, order, *word)?;
    }
    Ok(())
}

/// Returns the magic, a version and flags in a byte order.
fn magic(order: Endianness, version: &Version) -> [u8; 4] {
    match order {
        Endianness::Little => [0x9f, 0xeb, version.version, version.flags],
        Endianness::Big => [0xeb, 0x9f, version.version, version.flags],
    }
}

/// Returns `.BTF` of the words of types, with strings behind them.
fn file(
    alloc: Global,
    order: Endianness,
    version: &Version,
    types: &[u32],
    strings: &[u8],
) -> Result<Vec<u8>, AllocError> {
    let mut out = Vec::new(alloc);
    let length = 4 * types.len() as u32;
    out.extend_from_slice(&magic(order, version))?;
    append_words(&mut out, order, &[24, 0, length, length, strings.len() as u32])?;
    append_words(&mut out, order, types)?;
    out.extend_from_slice(strings)?;
    Ok(out)
}

/// Whether types are written as a header of version 1 without flags, these words, and these strings.
fn are_written(
    alloc: Global,
    order: Endianness,
    btf: &Btf,
    types: &[u32],
    strings: &[u8],
) -> Result<(), Fail> {
    let got = btf.to_bytes(alloc)?;
    let version = Version { version: 1, flags: 0 };
    let want = file(alloc, order, &version, types, strings)?;
    same_bytes(got.as_slice(), want.as_slice())
}

/// Whether types, and a clone of them, are written so.
fn both_are_written(
    alloc: Global,
    order: Endianness,
    btf: &Btf,
    types: &[u32],
    strings: &[u8],
) -> Result<(), Fail> {
    are_written(alloc, order, btf, types, strings)?;
    let copy = btf.clone()?;
    are_written(alloc, order, &copy, types, strings)
}

/// Keeps the first two types, with the first name.
fn shorten(btf: &mut Btf) {
    btf.truncate(3, FRONT_STRINGS);
}

/// Whether types that were read keep their bytes: written, cloned, and shortened.
fn keeps(alloc: Global, order: Endianness, mut btf: Btf) -> Result<(), Fail> {
    both_are_written(alloc, order, &btf, TYPES.as_slice(), STRINGS.as_slice())?;
    shorten(&mut btf);
    let (types, strings) = (TYPES.as_slice(), STRINGS.as_slice());
    let (types, strings) = (&types[..FRONT], &strings[..FRONT_STRINGS]);
    both_are_written(alloc, order, &btf, types, strings)
}

/// Whether a file with this version and these flags keeps its types' bytes, copied and taken over.
fn is_kept(alloc: Global, order: Endianness, version: &Version) -> Result<(), Fail> {
    let bytes = file(alloc, order, version, TYPES.as_slice(), STRINGS.as_slice())?;
    keeps(alloc, order, Btf::parse(alloc, &bytes, order)?)?;
    keeps(alloc, order, Btf::from_vec(bytes, order)?)
}

#[test]
fn keeps_the_bytes_of_types(rt: HostRuntime) -> Result<(), Fail> {
    for order in [Endianness::Little, Endianness::Big] {
        is_kept(rt.alloc(), order, &Version { version: 1, flags: 0 })?;
        is_kept(rt.alloc(), order, &Version { version: 3, flags: 9 })?;
    }
    Ok(())
}

/// Types, with the words that they are written as.
#[derive(Drop)]
struct Added {
    order: Endianness,
    btf: Btf,
    words: Vec<u32>,
}

impl Added {
    /// Adds a type. It is written as these words, and the words before stay.
    fn add(&mut self, alloc: Global, ty: &BtfType<'_>, words: &[u32]) -> Result<(), Fail> {
        self.btf.add_type(ty)?;
        self.words.extend_from_slice(words)?;
        let strings = STRINGS.as_slice();
        both_are_written(alloc, self.order, &self.btf, self.words.as_slice(), strings)
    }
}

/// Adds types that refer to another one, and have no further words.
fn add_references(alloc: Global, added: &mut Added) -> Result<(), Fail> {
    let (name_offset, btf_type) = (1, 4);
    added.add(alloc, &BtfType::Ptr { name_offset, btf_type }, &[1, 0x0200_0000, 4])?;
    added.add(alloc, &BtfType::Typedef { name_offset, btf_type }, &[1, 0x0800_0000, 4])?;
    added.add(alloc, &BtfType::Volatile { name_offset, btf_type }, &[1, 0x0900_0000, 4])?;
    added.add(alloc, &BtfType::Const { name_offset, btf_type }, &[1, 0x0a00_0000, 4])?;
    added.add(alloc, &BtfType::Restrict { name_offset, btf_type }, &[1, 0x0b00_0000, 4])?;
    added.add(alloc, &BtfType::Func { name_offset, btf_type }, &[1, 0x0c00_0000, 4])?;
    added.add(alloc, &BtfType::TypeTag { name_offset, btf_type }, &[1, 0x1200_0000, 4])
}

/// Adds a variable and a tag of a declaration, which have one further word.
fn add_declarations(alloc: Global, added: &mut Added) -> Result<(), Fail> {
    let var = BtfType::Var { name_offset: 1, btf_type: 4, linkage: 2 };
    added.add(alloc, &var, &[1, 0x0e00_0000, 4, 2])?;
    let tag = BtfType::DeclTag { name_offset: 3, btf_type: 4, component_index: 0xffff_ffff };
    added.add(alloc, &tag, &[3, 0x1100_0000, 4, 0xffff_ffff])
}

/// Adds types without a list that have a size, a number of elements, or neither.
fn add_sizes(alloc: Global, added: &mut Added) -> Result<(), Fail> {
    let int = BtfType::Int { name_offset: 1, size: 4, int_data: 0x0100_0020 };
    added.add(alloc, &int, &[1, 0x0100_0000, 4, 0x0100_0020])?;
    added.add(alloc, &BtfType::Float { name_offset: 1, size: 8 }, &[1, 0x1000_0000, 8])?;
    let array = BtfType::Array { name_offset: 0, element_type: 6, index_type: 5, len: 7 };
    added.add(alloc, &array, &[0, 0x0300_0000, 0, 6, 5, 7])?;
    let forward = BtfType::Fwd { name_offset: 3, kind_flag: true };
    added.add(alloc, &forward, &[3, 0x8700_0000, 0])
}

/// Adds a struct and a union.
fn add_members(alloc: Global, added: &mut Added) -> Result<(), Fail> {
    let members = [member(1, 6, 0), member(3, 7, 0x2000_0008)];
    let (name_offset, size) = (1, 8);
    let rows = Rows::of(&members);
    let ty = BtfType::Struct { name_offset, size, kind_flag: true, members: rows };
    added.add(alloc, &ty, &[1, 0x8400_0002, 8, 1, 6, 0, 3, 7, 0x2000_0008])?;
    let (rows, enum64_fallback) = (Rows::of(&members), UnionFallback::new(None));
    let ty = BtfType::Union { name_offset, size, kind_flag: false, members: rows, enum64_fallback };
    added.add(alloc, &ty, &[1, 0x0500_0002, 8, 1, 6, 0, 3, 7, 0x2000_0008])
}

/// Adds enumerations.
fn add_variants(alloc: Global, added: &mut Added) -> Result<(), Fail> {
    let variants = [BtfEnum { name_offset: 1, value: 0xffff_fffe }];
    let (name_offset, kind_flag) = (3, true);
    let rows = Rows::of(&variants);
    let ty = BtfType::Enum { name_offset, size: 4, kind_flag, variants: rows };
    added.add(alloc, &ty, &[3, 0x8600_0001, 4, 1, 0xffff_fffe])?;
    let variants = [BtfEnum64 { name_offset: 1, value_low: 2, value_high: 0x8000_0000 }];
    let rows = Rows::of(&variants);
    let ty = BtfType::Enum64 { name_offset, size: 8, kind_flag, variants: rows };
    added.add(alloc, &ty, &[3, 0x9300_0001, 8, 1, 2, 0x8000_0000])
}

/// Adds a prototype and a section.
fn add_other_lists(alloc: Global, added: &mut Added) -> Result<(), Fail> {
    let params = [BtfParam { name_offset: 1, btf_type: 6 }, BtfParam { name_offset: 0, btf_type: 0 }];
    let ty = BtfType::FuncProto { name_offset: 0, btf_type: 4, params: Rows::of(&params) };
    added.add(alloc, &ty, &[0, 0x0d00_0002, 4, 1, 6, 0, 0])?;
    let entries = [DataSecEntry { btf_type: 6, offset: 16, size: 4 }];
    let ty = BtfType::DataSec { name_offset: 3, size: 20, entries: Rows::of(&entries) };
    added.add(alloc, &ty, &[3, 0x0f00_0001, 20, 6, 16, 4])
}

/// Adds a type of each kind to the types of a file.
fn adds_each_kind(alloc: Global, order: Endianness) -> Result<(), Fail> {
    let version = Version { version: 1, flags: 0 };
    let bytes = file(alloc, order, &version, TYPES.as_slice(), STRINGS.as_slice())?;
    let btf = Btf::from_vec(bytes, order)?;
    let words = TYPES.as_slice().to_vec(alloc)?;
    let mut added = Added { order, btf, words };
    add_references(alloc, &mut added)?;
    add_declarations(alloc, &mut added)?;
    add_sizes(alloc, &mut added)?;
    add_members(alloc, &mut added)?;
    add_variants(alloc, &mut added)?;
    add_other_lists(alloc, &mut added)
}

#[test]
fn keeps_the_bytes_before_added_types(rt: HostRuntime) -> Result<(), Fail> {
    for order in [Endianness::Little, Endianness::Big] {
        adds_each_kind(rt.alloc(), order)?;
    }
    Ok(())
}

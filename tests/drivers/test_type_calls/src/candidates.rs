use ebpf_btf::{Btf, BtfError, BtfKind};
use ebpf_core_candidates::{KindsIndex, TypeIndex};
use std::alloc::{AllocError, Global};
use std::test::Fail;
use test_same::shows;
use test_types::{add_struct, add_typedef};

/// Adds a TYPEDEF, or a STRUCT, of a name.
fn add(btf: &mut Btf, kind: BtfKind, name: &str) -> Result<u32, BtfError> {
    match kind {
        BtfKind::Typedef => add_typedef(btf, name, 1),
        _ => {
            let name_offset = btf.add_string(name)?;
            add_struct(btf, name_offset, 8, &[])
        }
    }
}

fn types_of(alloc: Global, rows: &[Row]) -> Result<Btf, BtfError> {
    let mut btf = Btf::new(alloc)?;
    for (kind, name) in rows {
        add(&mut btf, *kind, name)?;
    }
    Ok(btf)
}

/// A type's kind and name.
type Row = (BtfKind, &'static str);

/// The types of a kernel, 1 to 5.
const KERNEL: [Row; 5] = [
    (BtfKind::Struct, "file"),
    (BtfKind::Struct, "dentry"),
    (BtfKind::Struct, "file___old"),
    (BtfKind::Typedef, "file"),
    (BtfKind::Struct, ""),
];

/// Those of an object.
const OBJECT: [Row; 3] = [
    (BtfKind::Struct, "file___mine"),
    (BtfKind::Struct, "inode"),
    (BtfKind::Typedef, "dentry"),
];

/// The index of all types.
fn whole<'a>(alloc: Global, btf: &'a Btf) -> Result<TypeIndex<'a>, BtfError> {
    TypeIndex::new(alloc, btf)
}

/// The index of the STRUCTs with names that an object's have.
fn named<'a>(alloc: Global, btf: &'a Btf, object: &Btf) -> Result<KindsIndex<'a>, BtfError> {
    TypeIndex::of_names(alloc, btf, &[BtfKind::Struct], object)
}

/// What the index of all types answers on STRUCTs, as the others write it.
fn whole_answer(alloc: Global, index: &TypeIndex<'_>, name: &str) -> Result<String, AllocError> {
    match index.candidates(BtfKind::Struct, name) {
        Ok(ids) => format!(in alloc; "Some(Ok({ids:?}))"),
        Err(error) => format!(in alloc; "{error:?}"),
    }
}

/// Fails where an index doesn't answer this.
fn answers(
    alloc: Global,
    index: &KindsIndex<'_>,
    kind: BtfKind,
    name: &str,
    want: &str,
) -> Result<(), Fail> {
    shows(alloc, &index.candidates(kind, name), want)
}

/// Fails where both indices answer differently, or that of STRUCTs on TYPEDEFs.
fn agree(
    alloc: Global,
    whole: &TypeIndex<'_>,
    structs: &KindsIndex<'_>,
    name: &str,
) -> Result<(), Fail> {
    let want = whole_answer(alloc, whole, name)?;
    answers(alloc, structs, BtfKind::Struct, name, want.as_str())?;
    answers(alloc, structs, BtfKind::Typedef, name, "None")
}

fn agree_on_all(
    alloc: Global,
    whole: &TypeIndex<'_>,
    structs: &KindsIndex<'_>,
) -> Result<(), Fail> {
    for name in ["file", "file___other", "dentry", ""] {
        agree(alloc, whole, structs, name)?;
    }
    Ok(())
}

fn both_agree(alloc: Global, kernel: &Btf) -> Result<(), Fail> {
    let whole = whole(alloc, kernel)?;
    let structs = named(alloc, kernel, kernel)?;
    agree_on_all(alloc, &whole, &structs)
}

#[test]
fn has_the_types_of_the_kinds_asked_for(rt: HostRuntime) -> Result<(), Fail> {
    let kernel = types_of(rt.alloc(), &KERNEL)?;
    both_agree(rt.alloc(), &kernel)
}

/// Fails where an index of the names of the object answers otherwise.
fn answers_by_names(alloc: Global, named: &KindsIndex<'_>) -> Result<(), Fail> {
    for (kind, name, want) in [
        (BtfKind::Struct, "file", "Some(Ok([1, 3]))"),
        (BtfKind::Struct, "file___other", "Some(Ok([1, 3]))"),
        (BtfKind::Struct, "inode", "Some(Ok([]))"),
        (BtfKind::Struct, "dentry", "None"),
        (BtfKind::Typedef, "file", "None"),
    ] {
        answers(alloc, named, kind, name, want)?;
    }
    Ok(())
}

fn has_names(alloc: Global, kernel: &Btf, object: &Btf) -> Result<(), Fail> {
    let named = named(alloc, kernel, object)?;
    answers_by_names(alloc, &named)
}

#[test]
fn has_the_names_that_an_object_has(rt: HostRuntime) -> Result<(), Fail> {
    let kernel = types_of(rt.alloc(), &KERNEL)?;
    let object = types_of(rt.alloc(), &OBJECT)?;
    has_names(rt.alloc(), &kernel, &object)
}

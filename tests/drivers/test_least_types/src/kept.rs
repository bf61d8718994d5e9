use crate::parts::{
    FIELD_EXISTS, OFFSET, TYPE_EXISTS, VARIANT, add_array, add_bits, add_fields, add_named_int,
    add_pointer_to, add_variants, object_of,
};
use crate::rows::{outcomes, spare_rows};
use crate::shown::types_as_text;
use ebpf_btf::{Btf, BtfError, BtfType, Endianness};
use ebpf_least_types::least_types_despite_ids;
use ebpf_object::Object;
use std::alloc::Global;
use std::slice;
use std::test::Fail;
use test_same::same;
use test_types::add_typedef;

/// An integer, which each side has as its first type.
fn start(alloc: Global) -> Result<Btf, BtfError> {
    let mut btf = Btf::new(alloc)?;
    add_named_int(&mut btf, "int", 4)?;
    Ok(btf)
}

/// Fails where the least types for an object are others than these, or an outcome over them differs.
fn kept_is(alloc: Global, object: &Object, kernel: &Btf, want: &str) -> Result<(), Fail> {
    let types = least_types_despite_ids(alloc, slice::from_ref(object), kernel)?;
    same(types_as_text(alloc, &types)?.as_str(), want)?;
    let before = outcomes(alloc, object, kernel)?;
    let after = outcomes(alloc, object, &types)?;
    same(after.as_str(), before.as_str())
}

/// The same, and fails where a row could be left out.
fn least_is(alloc: Global, object: &Object, kernel: &Btf, want: &str) -> Result<(), Fail> {
    kept_is(alloc, object, kernel, want)?;
    let types = least_types_despite_ids(alloc, slice::from_ref(object), kernel)?;
    same(spare_rows(alloc, object, &types)?.as_str(), "")
}

/// An object with a struct `s` that has one member, which is asked for.
fn asks_for_member(alloc: Global, name: &str, kind: u32) -> Result<Object, BtfError> {
    let mut local = start(alloc)?;
    let fields = add_fields(alloc, &mut local, "s", &[(name, 1)])?;
    object_of(alloc, local, &[(fields, "0:0", kind)])
}

fn kernel_with_unnamed(alloc: Global) -> Result<Btf, BtfError> {
    let mut kernel = start(alloc)?;
    let unnamed = add_fields(alloc, &mut kernel, "", &[("c", 1), ("d", 1)])?;
    add_fields(alloc, &mut kernel, "s", &[("a", 1), ("", unnamed), ("b", 1)])?;
    Ok(kernel)
}

#[test]
fn keeps_the_members_on_a_path(rt: HostRuntime) -> Result<(), Fail> {
    let alloc = rt.alloc();
    let kernel = kernel_with_unnamed(alloc)?;
    let object = asks_for_member(alloc, "d", OFFSET)?;
    let want = "Int int 4; Struct - 16 d:1@64; Struct s 24 -:2@64; ";
    least_is(alloc, &object, &kernel, want)
}

fn kernel_with_flavors(alloc: Global) -> Result<Btf, BtfError> {
    let mut kernel = start(alloc)?;
    add_fields(alloc, &mut kernel, "s", &[("x", 1)])?;
    add_fields(alloc, &mut kernel, "s___old", &[("x", 1), ("a", 1)])?;
    add_fields(alloc, &mut kernel, "t", &[("a", 1)])?;
    Ok(kernel)
}

#[test]
fn keeps_a_candidate_that_does_not_match(rt: HostRuntime) -> Result<(), Fail> {
    let alloc = rt.alloc();
    let kernel = kernel_with_flavors(alloc)?;
    let object = asks_for_member(alloc, "a", OFFSET)?;
    let want = "Int int 4; Struct s 8; Struct s___old 16 a:1@64; ";
    least_is(alloc, &object, &kernel, want)
}

#[test]
fn keeps_the_candidates_of_a_missing_member(rt: HostRuntime) -> Result<(), Fail> {
    let alloc = rt.alloc();
    let kernel = kernel_with_flavors(alloc)?;
    let object = asks_for_member(alloc, "gone", OFFSET)?;
    let want = "Struct s 8; Struct s___old 16; ";
    least_is(alloc, &object, &kernel, want)
}

fn kernel_with_conflict(alloc: Global) -> Result<Btf, BtfError> {
    let mut kernel = start(alloc)?;
    add_fields(alloc, &mut kernel, "s", &[("a", 1)])?;
    add_fields(alloc, &mut kernel, "s", &[("b", 1), ("a", 1)])?;
    Ok(kernel)
}

#[test]
fn keeps_candidates_in_conflict(rt: HostRuntime) -> Result<(), Fail> {
    let alloc = rt.alloc();
    let kernel = kernel_with_conflict(alloc)?;
    let object = asks_for_member(alloc, "a", OFFSET)?;
    let want = "Int int 4; Struct s 8 a:1@0; Struct s 16 a:1@64; ";
    least_is(alloc, &object, &kernel, want)
}

fn kernel_with_misfit(alloc: Global) -> Result<Btf, BtfError> {
    let mut kernel = start(alloc)?;
    let pointer = add_pointer_to(&mut kernel, 0)?;
    add_fields(alloc, &mut kernel, "s", &[("b", 1), ("a", pointer)])?;
    Ok(kernel)
}

#[test]
fn keeps_a_member_of_another_kind(rt: HostRuntime) -> Result<(), Fail> {
    let alloc = rt.alloc();
    let kernel = kernel_with_misfit(alloc)?;
    let object = asks_for_member(alloc, "a", OFFSET)?;
    least_is(alloc, &object, &kernel, "Ptr - >0; Struct s 16 a:1@64; ")
}

fn kernel_with_variants(alloc: Global) -> Result<Btf, BtfError> {
    let mut kernel = start(alloc)?;
    let variants = [("X", 5), ("Y", 9), ("Y___2", 10)];
    add_variants(alloc, &mut kernel, "e", &variants)?;
    Ok(kernel)
}

fn asks_for_variant(alloc: Global) -> Result<Object, BtfError> {
    let mut local = start(alloc)?;
    let variants = add_variants(alloc, &mut local, "e___local", &[("Y___local", 1)])?;
    object_of(alloc, local, &[(variants, "0", VARIANT)])
}

#[test]
fn keeps_a_variant_by_its_name(rt: HostRuntime) -> Result<(), Fail> {
    let alloc = rt.alloc();
    let kernel = kernel_with_variants(alloc)?;
    let object = asks_for_variant(alloc)?;
    least_is(alloc, &object, &kernel, "Enum e 4 Y=9; ")
}

fn kernel_with_bits(alloc: Global) -> Result<Btf, BtfError> {
    let mut kernel = start(alloc)?;
    add_bits(alloc, &mut kernel, "b", "first")?;
    Ok(kernel)
}

fn asks_for_bits(alloc: Global) -> Result<Object, BtfError> {
    let mut local = start(alloc)?;
    let fields = add_bits(alloc, &mut local, "b", "other")?;
    object_of(alloc, local, &[(fields, "0:1", OFFSET)])
}

#[test]
fn keeps_the_bits_of_a_bit_field(rt: HostRuntime) -> Result<(), Fail> {
    let alloc = rt.alloc();
    let kernel = kernel_with_bits(alloc)?;
    let object = asks_for_bits(alloc)?;
    let want = "Int int 4; Struct b 8 bits:1@50331685; ";
    least_is(alloc, &object, &kernel, want)
}

/// A kernel with a struct that has an array, and a member behind it.
fn kernel_with_array(alloc: Global, len: u32) -> Result<Btf, BtfError> {
    let mut kernel = start(alloc)?;
    let array = add_array(&mut kernel, 1, len)?;
    add_fields(alloc, &mut kernel, "s", &[("v", array), ("w", 1)])?;
    Ok(kernel)
}

fn asks_for_element(alloc: Global, kind: u32) -> Result<Object, BtfError> {
    let mut local = start(alloc)?;
    let array = add_array(&mut local, 1, 4)?;
    let fields = add_fields(alloc, &mut local, "s", &[("v", array)])?;
    object_of(alloc, local, &[(fields, "0:0:3", kind)])
}

#[test]
fn keeps_the_length_of_an_array(rt: HostRuntime) -> Result<(), Fail> {
    let alloc = rt.alloc();
    let kernel = kernel_with_array(alloc, 8)?;
    let object = asks_for_element(alloc, OFFSET)?;
    let want = "Int int 4; Array - 8 of 1; Struct s 16 v:2@0; ";
    least_is(alloc, &object, &kernel, want)
}

#[test]
fn keeps_the_member_behind_an_empty_array(rt: HostRuntime) -> Result<(), Fail> {
    let alloc = rt.alloc();
    let kernel = kernel_with_array(alloc, 0)?;
    let object = asks_for_element(alloc, FIELD_EXISTS)?;
    let want = "Int int 4; Array - 0 of 1; Struct s 16 v:2@0 w:1@64; ";
    kept_is(alloc, &object, &kernel, want)
}

fn kernel_with_pointers(alloc: Global) -> Result<Btf, BtfError> {
    let mut kernel = start(alloc)?;
    let kept = add_fields(alloc, &mut kernel, "t", &[("z", 1), ("x", 1)])?;
    let to_kept = add_pointer_to(&mut kernel, kept)?;
    let other = add_fields(alloc, &mut kernel, "u", &[("y", 1)])?;
    let to_other = add_pointer_to(&mut kernel, other)?;
    add_fields(alloc, &mut kernel, "s", &[("p", to_kept), ("q", to_other)])?;
    Ok(kernel)
}

fn asks_for_pointers(alloc: Global) -> Result<Object, BtfError> {
    let mut local = start(alloc)?;
    let pointer = add_pointer_to(&mut local, 0)?;
    let fields = add_fields(alloc, &mut local, "s", &[("p", pointer), ("q", pointer)])?;
    let other = add_fields(alloc, &mut local, "t", &[("x", 1)])?;
    let asked = [
        (fields, "0:0", OFFSET),
        (fields, "0:1", OFFSET),
        (other, "0:0", OFFSET),
        (other, "0:0", OFFSET),
    ];
    object_of(alloc, local, &asked)
}

#[test]
fn declares_the_targets_of_pointers(rt: HostRuntime) -> Result<(), Fail> {
    let alloc = rt.alloc();
    let kernel = kernel_with_pointers(alloc)?;
    let object = asks_for_pointers(alloc)?;
    let want =
        "Int int 4; Struct t 16 x:1@64; Ptr - >2; Ptr - >6; Struct s 16 p:3@0 q:4@64; Fwd u; ";
    least_is(alloc, &object, &kernel, want)
}

/// An object that asks whether a declared type exists, and for a pointer to a struct of its name.
fn asks_for_declared(alloc: Global) -> Result<Object, BtfError> {
    let mut local = start(alloc)?;
    let pointer = add_pointer_to(&mut local, 0)?;
    let fields = add_fields(alloc, &mut local, "s", &[("q", pointer)])?;
    let name_offset = local.add_string("u")?;
    let declared = local.add_type(&BtfType::Fwd {
        name_offset,
        kind_flag: false,
    })?;
    let asked = [(fields, "0:0", OFFSET), (declared, "0", TYPE_EXISTS)];
    object_of(alloc, local, &asked)
}

#[test]
fn declares_nothing_that_is_asked_for(rt: HostRuntime) -> Result<(), Fail> {
    let alloc = rt.alloc();
    let kernel = kernel_with_pointers(alloc)?;
    let object = asks_for_declared(alloc)?;
    least_is(alloc, &object, &kernel, "Ptr - >0; Struct s 16 q:1@64; ")
}

fn kernel_with_names(alloc: Global) -> Result<Btf, BtfError> {
    let mut kernel = start(alloc)?;
    let pointer = add_pointer_to(&mut kernel, 1)?;
    add_typedef(&mut kernel, "name", pointer)?;
    add_typedef(&mut kernel, "other", 1)?;
    Ok(kernel)
}

fn asks_for_name(alloc: Global) -> Result<Object, BtfError> {
    let mut local = start(alloc)?;
    let pointer = add_pointer_to(&mut local, 1)?;
    let name = add_typedef(&mut local, "name", pointer)?;
    object_of(alloc, local, &[(name, "0", TYPE_EXISTS)])
}

#[test]
fn keeps_what_a_comparison_looks_at(rt: HostRuntime) -> Result<(), Fail> {
    let alloc = rt.alloc();
    let kernel = kernel_with_names(alloc)?;
    let object = asks_for_name(alloc)?;
    least_is(alloc, &object, &kernel, "Int int 4; Ptr - >1; Typedef name >2; ")
}

/// The first byte of the types for a big-endian object.
fn first_byte(alloc: Global) -> Result<Option<u8>, BtfError> {
    let kernel = kernel_with_names(alloc)?;
    let mut object = asks_for_name(alloc)?;
    object.endianness = Endianness::Big;
    let types = least_types_despite_ids(alloc, slice::from_ref(&object), &kernel)?;
    let bytes = types.to_bytes(alloc)?;
    Ok(bytes.first().copied())
}

#[test]
fn writes_in_the_byte_order_of_the_objects(rt: HostRuntime) -> Result<(), Fail> {
    let alloc = rt.alloc();
    let found = format!(in alloc; "{:?}", first_byte(alloc)?)?;
    same(found.as_str(), "Some(235)")
}

/// The types for two objects, and for none.
#[test]
fn keeps_what_each_object_asks_for(rt: HostRuntime) -> Result<(), Fail> {
    let alloc = rt.alloc();
    let kernel = kernel_with_unnamed(alloc)?;
    let objects = [
        asks_for_member(alloc, "a", OFFSET)?,
        asks_for_member(alloc, "b", OFFSET)?,
    ];
    let types = least_types_despite_ids(alloc, &objects, &kernel)?;
    same(
        types_as_text(alloc, &types)?.as_str(),
        "Int int 4; Struct s 24 a:1@0 b:1@128; ",
    )?;
    let none = least_types_despite_ids(alloc, &[], &kernel)?;
    same(types_as_text(alloc, &none)?.as_str(), "")
}

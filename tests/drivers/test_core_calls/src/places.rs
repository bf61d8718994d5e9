use ebpf_base::Text;
use ebpf_btf::{Btf, BtfError};
use ebpf_core::{Step, place_in};
use std::alloc::{AllocError, Global};
use std::test::Fail;
use test_same::shows;
use test_types::{add_int, add_pointer, add_struct, member};

/// The name `a`, the first string that is added.
const A: u32 = 1;

/// A type inside so many structs, in each as the anonymous member at bit 8.
fn add_levels(btf: &mut Btf, innermost: u32, levels: u32) -> Result<u32, BtfError> {
    let mut id = innermost;
    for _level in 0..levels {
        id = add_struct(btf, 0, 8, &[member(0, id, 8)])?;
    }
    Ok(id)
}

/// A struct of so many members with a name.
fn add_others(alloc: Global, btf: &mut Btf, name: u32, count: usize) -> Result<u32, BtfError> {
    let members = vec![in alloc; member(name, 1, 0); count]?;
    add_struct(btf, 0, 8, &members)
}

/// The root index 0 and then the member `a`, whose local type is the type 1.
fn path_to_a(alloc: Global) -> Result<Vec<Step>, AllocError> {
    let mut path = Vec::new(alloc);
    path.push(Step::Index { index: 0 })?;
    path.push(Step::Name {
        name: Text::from_str(alloc, "a")?,
        local_type: 1,
    })?;
    Ok(path)
}

/// Fails where looking for `a` in a type doesn't come to this.
fn leads(alloc: Global, btf: &Btf, root: u32, want: &str) -> Result<(), Fail> {
    let path = path_to_a(alloc)?;
    shows(alloc, &place_in(btf, btf, root, &path), want)
}

/// Types with `a` in the strings and an int as type 1.
fn start(alloc: Global) -> Result<Btf, BtfError> {
    let mut btf = Btf::new(alloc)?;
    btf.add_string("a")?;
    add_int(&mut btf, 4, 32)?;
    Ok(btf)
}

/// Adds a struct with `a` inside so many anonymous members.
fn add_deep(btf: &mut Btf, levels: u32) -> Result<u32, BtfError> {
    let innermost = add_struct(btf, 0, 8, &[member(A, 1, 32)])?;
    add_levels(btf, innermost, levels)
}

/// What looking for `a` comes to where it lies inside so many anonymous members.
fn at_level(alloc: Global, levels: u32, want: &str) -> Result<(), Fail> {
    let mut btf = start(alloc)?;
    let root = add_deep(&mut btf, levels)?;
    leads(alloc, &btf, root, want)
}

/// Adds a struct with `a` behind 16 anonymous members of a type and so many others.
fn add_wide(
    alloc: Global,
    btf: &mut Btf,
    inner: u32,
    other: u32,
    others: u32,
) -> Result<u32, BtfError> {
    let mut members = vec![in alloc; member(0, inner, 0); 16]?;
    for _other in 0..others {
        members.push(member(other, 1, 64))?;
    }
    members.push(member(A, 1, 96))?;
    add_struct(btf, 0, 8, &members)
}

/// The same where that type has 65,534 others.
fn add_behind(alloc: Global, btf: &mut Btf, others: u32) -> Result<u32, BtfError> {
    let other = btf.add_string("b")?;
    let inner = add_others(alloc, btf, other, 65_534)?;
    add_wide(alloc, btf, inner, other, others)
}

/// What looking for `a` comes to there.
fn behind_others(alloc: Global, others: u32, want: &str) -> Result<(), Fail> {
    let mut btf = start(alloc)?;
    let root = add_behind(alloc, &mut btf, others)?;
    leads(alloc, &btf, root, want)
}

#[test]
fn goes_down_64_levels(rt: HostRuntime) -> Result<(), Fail> {
    let want = "Ok(Some(FieldPlace { bits: 544, end: Member { parent: 2, index: 0 } }))";
    at_level(rt.alloc(), 64, want)?;
    at_level(rt.alloc(), 65, "Err(NestingLevel)")
}

#[test]
fn looks_at_1_048_576_members(rt: HostRuntime) -> Result<(), Fail> {
    let want = "Ok(Some(FieldPlace { bits: 96, end: Member { parent: 3, index: 31 } }))";
    behind_others(rt.alloc(), 15, want)?;
    behind_others(rt.alloc(), 16, "Err(NestingLevel)")
}

/// An anonymous struct whose `a` is a pointer and has another `a` behind it, the type 3.
fn add_inner(btf: &mut Btf) -> Result<u32, BtfError> {
    let pointer = add_pointer(btf)?;
    add_struct(btf, 0, 8, &[member(A, pointer, 0), member(A, 1, 64)])
}

/// A struct of that struct and of an `a`, the type 4.
fn add_outer(btf: &mut Btf) -> Result<u32, BtfError> {
    let inner = add_inner(btf)?;
    add_struct(btf, 0, 8, &[member(0, inner, 0), member(A, 1, 96)])
}

#[test]
fn passes_a_misfit_in_an_inner_type(rt: HostRuntime) -> Result<(), Fail> {
    let mut btf = start(rt.alloc())?;
    let root = add_outer(&mut btf)?;
    let want = "Ok(Some(FieldPlace { bits: 96, end: Member { parent: 4, index: 1 } }))";
    leads(rt.alloc(), &btf, root, want)?;
    leads(rt.alloc(), &btf, 3, "Ok(None)")
}

//! Each call that takes memory, once on its happy path.

use ebpf_base::{ByIndex, ByKey, ByName, ByNumber, Items, Text};
use std::alloc::{AllocError, Global};
use std::collections::{BTreeMap, HashMap};
use std::test::Fail;
use test_same::holds;

/// Fails where a copy isn't that text.
fn is_maps(copy: &Text, text: &Text) -> Result<(), Fail> {
    holds(copy.is("maps"), "the text")?;
    holds(!copy.is("map"), "the whole text")?;
    holds(copy == text, "the same text")
}

#[test]
fn texts(rt: HostRuntime) -> Result<(), Fail> {
    let text = Text::from_str(rt.alloc(), "maps")?;
    let copy = text.clone()?;
    is_maps(&copy, &text)
}

fn items(alloc: Global) -> Result<Items<u32>, AllocError> {
    let mut items = Items::new(alloc);
    items.push(3u32)?;
    items.extend_from_slice(&[5, 7])?;
    Ok(items)
}

/// Fails where numbers aren't these.
fn are(got: &[u32], want: &[u32]) -> Result<(), Fail> {
    holds(got == want, "the numbers")
}

/// Fails where the list isn't copied both ways.
fn is_copied(items: &Items<u32>) -> Result<(), Fail> {
    let copied = items.copied()?;
    let cloned = items.clone()?;
    are(copied.as_slice(), &[3, 5, 7])?;
    holds(cloned == copied, "the same list")
}

#[test]
fn lists(rt: HostRuntime) -> Result<(), Fail> {
    let items = items(rt.alloc())?;
    is_copied(&items)
}

fn named(alloc: Global) -> Result<ByName<u32>, AllocError> {
    let mut map = ByName::from_map(BTreeMap::new(alloc));
    for (name, value) in [("rodata", 1u32), ("bss", 2), ("data", 3)] {
        map.insert(String::from_str(alloc, name)?, value)?;
    }
    Ok(map)
}

/// Fails where the names aren't in order.
fn has_names(alloc: Global, map: &ByName<u32>) -> Result<(), Fail> {
    let names = map.names(alloc)?;
    let is_ordered = names.as_slice() == ["bss", "data", "rodata"].as_slice();
    holds(is_ordered, "the names")
}

#[test]
fn by_name(rt: HostRuntime) -> Result<(), Fail> {
    let map = named(rt.alloc())?;
    let copy = map.clone()?;
    has_names(rt.alloc(), &copy)
}

fn indexed(alloc: Global) -> Result<ByIndex<u32>, AllocError> {
    let mut map = ByIndex::from_map(HashMap::new(alloc));
    for (index, value) in [(9usize, 1u32), (2, 2), (5, 3)] {
        map.insert(index, value)?;
    }
    Ok(map)
}

/// Fails where the indices aren't in order.
fn has_indices(alloc: Global, map: &ByIndex<u32>) -> Result<(), Fail> {
    let indices = map.indices(alloc)?;
    let is_ordered = indices.as_slice() == [2, 5, 9].as_slice();
    holds(is_ordered, "the indices")
}

#[test]
fn by_index(rt: HostRuntime) -> Result<(), Fail> {
    let map = indexed(rt.alloc())?;
    let copy = map.clone()?;
    has_indices(rt.alloc(), &copy)
}

#[test]
fn numbers(rt: HostRuntime) -> Result<(), Fail> {
    let mut numbers = ByNumber::from_map(BTreeMap::new(rt.alloc()));
    numbers.insert(8, 1u32)?;
    holds(numbers.clone()? == numbers, "by number")
}

#[test]
fn keys(rt: HostRuntime) -> Result<(), Fail> {
    let mut keys = ByKey::from_map(BTreeMap::new(rt.alloc()));
    keys.insert((4, 8), 1u32)?;
    holds(keys.clone()? == keys, "by key")
}

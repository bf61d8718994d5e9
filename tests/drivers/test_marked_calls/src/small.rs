//! Small types that grow by one: something is added to so many as the word says, or all is copied.

use crate::call::{Call, say};
use ebpf_base::{ByIndex, ByKey, ByName, ByNumber, Items, Text};
use std::alloc::{AllocError, Global};
use std::fmt::Debug;
use std::io;

/// A type that grows by the entry of a number.
trait Grow: Debug + Drop {
    fn add(&mut self, alloc: Global, number: u32) -> Result<(), AllocError>;
}

impl Grow for ByName<u32> {
    fn add(&mut self, alloc: Global, number: u32) -> Result<(), AllocError> {
        self.insert(format!(in alloc; "name{number}")?, number)?;
        Ok(())
    }
}

impl Grow for ByIndex<u32> {
    fn add(&mut self, _alloc: Global, number: u32) -> Result<(), AllocError> {
        self.insert(number as usize, number)?;
        Ok(())
    }
}

impl Grow for ByKey<u32> {
    fn add(&mut self, _alloc: Global, number: u32) -> Result<(), AllocError> {
        self.insert((1, u64::from(number)), number)?;
        Ok(())
    }
}

impl Grow for ByNumber<u32> {
    fn add(&mut self, _alloc: Global, number: u32) -> Result<(), AllocError> {
        self.insert(u64::from(number), number)?;
        Ok(())
    }
}

impl Grow for Items<u32> {
    fn add(&mut self, _alloc: Global, number: u32) -> Result<(), AllocError> {
        self.extend_from_slice(&[number])
    }
}

/// So many more entries.
fn filled<T: Grow>(alloc: Global, mut entries: T, count: u32) -> Result<T, AllocError> {
    for number in 0..count {
        entries.add(alloc, number)?;
    }
    Ok(entries)
}

/// Adds one more, and prints all before and afterwards.
fn add_one<T: Grow>(mut entries: T, call: &Call<'_>) -> io::Result<()> {
    let _ = say(call.rt, "before:\n", &entries);
    call.begin();
    let _ = call.tell(entries.add(call.rt.alloc(), call.number()));
    say(call.rt, "after:\n", entries)
}

/// Adds one more to so many.
fn grown<T: Grow>(empty: T, call: &Call<'_>) -> io::Result<()> {
    add_one(filled(call.rt.alloc(), empty, call.number())?, call)
}

/// Copies a list.
fn copy_of(items: &Items<u32>, call: &Call<'_>) -> io::Result<()> {
    call.begin();
    call.tell(items.copied())
}

/// Copies a list of so many.
fn copy(call: &Call<'_>) -> io::Result<()> {
    let items: Items<u32> = filled(call.rt.alloc(), Items::new(call.rt.alloc()), call.number())?;
    copy_of(&items, call)
}

/// A text of the word.
fn text(call: &Call<'_>) -> io::Result<()> {
    call.begin();
    call.tell(Text::from_str(call.rt.alloc(), call.word))
}

/// A call on a small type.
pub fn on_small(call: &Call<'_>) -> io::Result<()> {
    match call.name {
        "by_name" => grown::<ByName<u32>>(ByName::new(call.rt.alloc()), call),
        "by_index" => grown::<ByIndex<u32>>(ByIndex::new(call.rt.alloc()), call),
        "by_key" => grown::<ByKey<u32>>(ByKey::new(call.rt.alloc()), call),
        "by_number" => grown::<ByNumber<u32>>(ByNumber::new(call.rt.alloc()), call),
        "extended" => grown::<Items<u32>>(Items::new(call.rt.alloc()), call),
        "copied" => copy(call),
        "text" => text(call),
        _ => call.miss(),
    }
}

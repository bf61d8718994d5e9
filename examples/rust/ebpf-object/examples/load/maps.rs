//! Maps in the kernel.
use crate::bpf::{self, Command, MapCreate, MapElement};
use crate::Fault;
use ebpf_object::{Map, MapShape, Object, SectionKind, Variable};
use std::os::fd::{AsRawFd, OwnedFd};

const RINGBUF: u32 = 27;
const USER_RINGBUF: u32 = 31;
const PERF_EVENT_ARRAY: u32 = 4;
/// A key of such a map has a value for each processor.
const BY_PROCESSOR: [u32; 4] = [5, 6, 10, 21];

/// The maps of an object, each with its descriptor.
pub struct Maps {
    made: Vec<(Map, OwnedFd)>,
}

/// How many entries the kernel is asked for: of a ring buffer bytes, a power of two of pages; an array of events that
/// states none has one for each processor.
fn entries_of(shape: &MapShape) -> u32 {
    match shape.map_type {
        PERF_EVENT_ARRAY if shape.max_entries == 0 => bpf::processors(),
        RINGBUF | USER_RINGBUF => shape.max_entries.max(bpf::page_size()).next_power_of_two(),
        _ => shape.max_entries,
    }
}

/// Makes a map; without types where the kernel doesn't take them for it.
fn make(shape: &MapShape, inner: Option<&OwnedFd>, types: Option<&OwnedFd>, name: &str) -> Result<OwnedFd, Fault> {
    let mut attributes = MapCreate {
        map_type: shape.map_type,
        key_size: shape.key_size,
        value_size: shape.value_size,
        max_entries: entries_of(shape),
        map_flags: shape.flags,
        map_extra: shape.extra,
        inner_map_fd: inner.map_or(0, bpf::number),
        btf_fd: types.map_or(0, bpf::number),
        btf_key_type_id: shape.key_type_id,
        btf_value_type_id: shape.value_type_id,
        map_name: bpf::short_name(name),
        ..MapCreate::default()
    };
    // SAFETY: the attributes have no address.
    let mut made = unsafe { bpf::call_for_descriptor(Command::MapCreate, &mut attributes) };
    if made.is_err() && shape.value_type_id != 0 {
        (attributes.btf_fd, attributes.btf_key_type_id, attributes.btf_value_type_id) = (0, 0, 0);
        // SAFETY: as above.
        made = unsafe { bpf::call_for_descriptor(Command::MapCreate, &mut attributes) };
    }
    made.map_err(|error| bpf::refused(&error, &format!("the map {name}"), &[]))
}

/// Writes a value at a key.
fn update(map: &OwnedFd, key: u32, value: &[u8], what: &str) -> Result<(), Fault> {
    let key = key.to_ne_bytes();
    let (map_fd, key, value) = (bpf::number(map), bpf::address(&key), bpf::address(value));
    let mut attributes = MapElement { map_fd, key, value, ..MapElement::default() };
    // SAFETY: the maps that are written here have keys of 4 bytes, and values of this length.
    let written = unsafe { bpf::call(Command::MapUpdate, &mut attributes) };
    written.map(drop).map_err(|error| bpf::refused(&error, what, &[]))
}

/// Writes the bytes that a map of variables begins with; constants are written by no one from then on.
fn fill(object: &Object, map: &Map, made: &OwnedFd) -> Result<(), Fault> {
    let mut data = object.map_data(&map.name)?;
    data.resize(data.len().max(map.shape.value_size as usize), 0);
    update(made, 0, &data, &format!("the data of {}", map.name))?;
    if map.section_kind != SectionKind::Rodata {
        return Ok(());
    }
    let mut attributes = MapElement { map_fd: bpf::number(made), ..MapElement::default() };
    // SAFETY: the attributes have no address.
    let frozen = unsafe { bpf::call(Command::MapFreeze, &mut attributes) };
    frozen.map(drop).map_err(|error| bpf::refused(&error, &format!("to freeze {}", map.name), &[]))
}

impl Maps {
    /// Makes each map; of a map of maps first one of those that it holds, by which the kernel knows what it takes.
    pub fn make(object: &Object, types: Option<&OwnedFd>) -> Result<Maps, Fault> {
        let mut made = Vec::new();
        for map in object.maps()? {
            let inner = map.inner.as_ref().map(|shape| make(shape, None, types, "inner")).transpose()?;
            let descriptor = make(&map.shape, inner.as_ref(), types, &map.name)?;
            if map.data_len != 0 {
                fill(object, &map, &descriptor)?;
            }
            made.push((map, descriptor));
        }
        Ok(Maps { made })
    }

    /// Each map's name and descriptor.
    pub fn descriptors(&self) -> Vec<(&str, i32)> {
        self.made.iter().map(|(map, made)| (map.name.as_str(), made.as_raw_fd())).collect()
    }

    fn find(&self, name: &str) -> Result<&(Map, OwnedFd), Fault> {
        let found = self.made.iter().find(|(map, _)| map.name == name);
        found.ok_or_else(|| format!("no map {name}").into())
    }

    /// The descriptor of a map.
    pub fn descriptor(&self, name: &str) -> Result<&OwnedFd, Fault> {
        Ok(&self.find(name)?.1)
    }

    /// Puts a map or a program into a map.
    pub fn put(&self, name: &str, index: u32, target: &OwnedFd) -> Result<(), Fault> {
        let value = target.as_raw_fd().to_ne_bytes();
        update(self.descriptor(name)?, index, &value, &format!("a value of {name} at {index}"))
    }

    /// Whether there is a map of a name.
    pub fn has(&self, name: &str) -> bool {
        self.find(name).is_ok()
    }

    /// Prints the bytes of a variable.
    pub fn show_variable(&self, variable: &Variable) -> Result<(), Fault> {
        let (map, made) = self.find(&variable.map)?;
        let (key, mut value) = ([0u8; 4], vec![0u8; map.shape.value_size as usize]);
        let (map_fd, key, at) = (bpf::number(made), bpf::address(&key), value.as_mut_ptr() as u64);
        let mut attributes = MapElement { map_fd, key, value: at, ..MapElement::default() };
        // SAFETY: a map of variables has keys of 4 bytes, and the value has as many bytes as the map's.
        let read = unsafe { bpf::call(Command::MapLookup, &mut attributes) };
        read.map_err(|error| bpf::refused(&error, &format!("the value of {}", variable.name), &[]))?;
        let (from, size) = (usize::try_from(variable.offset)?, usize::try_from(variable.size)?);
        println!("{}", hexadecimal(&value[from..from + size]));
        Ok(())
    }

    /// Prints each key of a map with its value.
    pub fn show(&self, name: &str) -> Result<(), Fault> {
        let (map, made) = self.find(name)?;
        let shape = &map.shape;
        if BY_PROCESSOR.contains(&shape.map_type) {
            return Err(format!("{name} has a value for each processor, which is not printed").into());
        }
        let (mut key, mut value) = (vec![0u8; shape.key_size as usize], vec![0u8; shape.value_size as usize]);
        let mut next = key.clone();
        let mut attributes = MapElement { map_fd: bpf::number(made), ..MapElement::default() };
        loop {
            attributes.value = next.as_mut_ptr() as u64;
            // SAFETY: the key has as many bytes as the map's, and the place of the next one too.
            if unsafe { bpf::call(Command::MapNextKey, &mut attributes) }.is_err() {
                return Ok(());
            }
            key.copy_from_slice(&next);
            (attributes.key, attributes.value) = (bpf::address(&key), value.as_mut_ptr() as u64);
            // SAFETY: the key has as many bytes as the map's, and the value too.
            let read = unsafe { bpf::call(Command::MapLookup, &mut attributes) };
            read.map_err(|error| bpf::refused(&error, &format!("a value of {name}"), &[]))?;
            println!("{} {}", hexadecimal(&key), hexadecimal(&value));
        }
    }
}

fn hexadecimal(bytes: &[u8]) -> String {
    bytes.iter().map(|it| format!("{it:02x}")).collect()
}

//! The files of a case.

use std::alloc::{AllocError, Global};

/// The value of a hexadecimal digit.
fn digit(byte: u8) -> Option<u8> {
    match byte {
        b'0'..=b'9' => Some(byte - b'0'),
        b'a'..=b'f' => Some(byte - b'a' + 10),
        _ => None,
    }
}

/// The byte of two digits.
fn byte_of(high: u8, low: u8) -> Option<u8> {
    let high = digit(high)?;
    let low = digit(low)?;
    Some((high << 4) | low)
}

/// Appends the bytes that digits say, up to the first two that say none; whether each was said.
pub fn put_hex(bytes: &mut Vec<u8>, digits: &str) -> Result<bool, AllocError> {
    for pair in digits.as_bytes().chunks(2) {
        let [high, low] = pair else {
            return Ok(false);
        };
        let Some(byte) = byte_of(*high, *low) else {
            return Ok(false);
        };
        bytes.push(byte)?;
    }
    Ok(true)
}

/// The first bytes; all, where there are not so many.
pub fn front(bytes: &[u8], length: usize) -> &[u8] {
    bytes.get(..length).unwrap_or(bytes)
}

/// The bytes with another one at a place.
pub fn changed(
    alloc: Global,
    bytes: &[u8],
    place: usize,
    value: u8,
) -> Result<Vec<u8>, AllocError> {
    let mut bytes = bytes.to_vec(alloc)?;
    if let Some(byte) = bytes.get_mut(place) {
        *byte = value;
    }
    Ok(bytes)
}

/// A file and its name.
#[derive(Drop)]
struct NamedFile {
    name: String,
    bytes: Vec<u8>,
}

/// How many times bytes stand, and how a little endian number among them grows from one time to the next: its place,
/// and by how much.
#[derive(Clone, Copy)]
pub struct Rise {
    pub times: u64,
    pub place: usize,
    pub step: u64,
}

/// Adds to the number of eight bytes at a place, modulo 2^64.
fn add_at(bytes: &mut [u8], place: usize, step: u64) {
    let mut carry = step;
    for byte in bytes.iter_mut().skip(place).take(8) {
        let sum = (carry & 0xff).wrapping_add(u64::from(*byte));
        *byte = (sum & 0xff) as u8;
        carry = (carry >> 8).wrapping_add(sum >> 8);
    }
}

/// The files of a case, by name.
#[derive(Drop)]
pub struct Files {
    alloc: Global,
    files: Vec<NamedFile>,
}

impl Files {
    /// No file.
    pub fn new(alloc: Global) -> Files {
        Files {
            alloc,
            files: Vec::new(alloc),
        }
    }

    /// Lets go of each file.
    pub fn clear(&mut self) {
        self.files.clear();
    }

    /// Adds a file without bytes.
    pub fn start(&mut self, name: &str) -> Result<(), AllocError> {
        let file = NamedFile {
            name: String::from_str(self.alloc, name)?,
            bytes: Vec::new(self.alloc),
        };
        self.files.push(file)?;
        Ok(())
    }

    /// Appends the bytes that hexadecimal digits say to the last file, so many times. From one time to the next the
    /// number of eight bytes at a place among them grows. `false` where no file was begun or where these are no such
    /// digits.
    pub fn append(&mut self, digits: &str, rise: Rise) -> Result<bool, AllocError> {
        let mut bytes = Vec::new(self.alloc);
        if !put_hex(&mut bytes, digits)? {
            return Ok(false);
        }
        let Some(file) = self.files.last_mut() else {
            return Ok(false);
        };
        for _ in 0..rise.times {
            file.bytes.extend_from_slice(bytes.as_slice())?;
            add_at(bytes.as_mut_slice(), rise.place, rise.step);
        }
        Ok(true)
    }

    /// The bytes of the file of a name; none where there is no such file.
    pub fn get(&self, name: &str) -> &[u8] {
        for file in &self.files {
            if file.name.as_str() == name {
                return file.bytes.as_slice();
            }
        }
        &[]
    }
}

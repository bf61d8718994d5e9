//! The file that the tests change.

use ebpf_base::Endianness;
use std::alloc::{AllocError, Global};

/// The code of a call.
const CALL: u8 = 0x85;

/// A field: its offset, the number's width in bytes, and its value.
pub type Field = (u16, u8, u64);

/// The fields of a file of 616 bytes: a program in `kprobe/p` with a call of `f` in `.text`.
const FIELDS: [Field; 49] = [
    (0, 1, 0x7f),
    (1, 1, 0x45),
    (2, 1, 0x4c),
    (3, 1, 0x46),
    (4, 1, 2),
    (6, 1, 1),
    (16, 2, 1),
    (18, 2, 247),
    (20, 4, 1),
    (40, 8, 232),
    (52, 2, 64),
    (58, 2, 64),
    (60, 2, 6),
    (62, 2, 4),
    // p
    (112, 4, 1),
    (116, 1, 0x12),
    (118, 2, 1),
    (128, 8, 16),
    // f
    (136, 4, 3),
    (140, 1, 0x12),
    (142, 2, 2),
    (152, 8, 8),
    // the relocation of the call
    (168, 8, 0x2_0000_000a),
    // kprobe/p
    (296, 4, 5),
    (300, 4, 1),
    (304, 8, 6),
    (320, 8, 64),
    (328, 8, 16),
    // .text
    (360, 4, 14),
    (364, 4, 1),
    (368, 8, 6),
    (384, 8, 80),
    (392, 8, 8),
    // .symtab
    (424, 4, 20),
    (428, 4, 2),
    (448, 8, 88),
    (456, 8, 72),
    (464, 4, 4),
    (468, 4, 1),
    // .strtab
    (488, 4, 28),
    (492, 4, 3),
    (512, 8, 176),
    (520, 8, 49),
    // .relkprobe/p
    (552, 4, 36),
    (556, 4, 9),
    (576, 8, 160),
    (584, 8, 16),
    (592, 4, 3),
    (596, 4, 1),
];

pub const CODE: [u8; 24] = [
    CALL, 0x10, 0, 0, 0xff, 0xff, 0xff, 0xff, 0x95, 0, 0, 0, 0, 0, 0, 0, 0x95, 0, 0, 0, 0, 0, 0, 0,
];

const STRINGS: [u8; 49] = *b"\0p\0f\0kprobe/p\0.text\0.symtab\0.strtab\0.relkprobe/p\0";

/// Writes a field.
fn write(bytes: &mut [u8], order: Endianness, field: &Field) {
    let (offset, width, value) = *field;
    let numbers = value.to_le_bytes();
    for (i, byte) in numbers.iter().enumerate() {
        if i >= usize::from(width) {
            break;
        }
        let shift = match order {
            Endianness::Little => i,
            Endianness::Big => usize::from(width) - 1 - i,
        };
        if let Some(slot) = bytes.get_mut(usize::from(offset) + shift) {
            *slot = *byte;
        }
    }
}

/// Writes fields, one after the other.
fn write_all(bytes: &mut [u8], order: Endianness, fields: &[Field]) {
    for field in fields {
        write(bytes, order, field);
    }
}

/// The file's bytes without its fields.
fn parts(alloc: Global) -> Result<Vec<u8>, AllocError> {
    let mut bytes = Vec::new(alloc);
    bytes.extend_from_slice(&[0; 64])?;
    bytes.extend_from_slice(&CODE)?;
    bytes.extend_from_slice(&[0; 88])?;
    bytes.extend_from_slice(&STRINGS)?;
    bytes.extend_from_slice(&[0; 391])?;
    Ok(bytes)
}

/// The number of a byte order in a file's header.
fn order_number(order: Endianness) -> u64 {
    match order {
        Endianness::Little => 1,
        Endianness::Big => 2,
    }
}

/// The file with some fields changed.
pub fn file_with(
    alloc: Global,
    order: Endianness,
    changes: &[Field],
) -> Result<Vec<u8>, AllocError> {
    let mut bytes = parts(alloc)?;
    write(&mut bytes, order, &(5, 1, order_number(order)));
    write_all(&mut bytes, order, &FIELDS);
    write_all(&mut bytes, order, changes);
    Ok(bytes)
}

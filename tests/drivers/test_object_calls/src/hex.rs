//! Bytes as hexadecimal digits.

use std::alloc::{AllocError, Global};

/// The value of a hexadecimal digit.
fn digit(byte: u8) -> u8 {
    match byte {
        b'0'..=b'9' => byte - b'0',
        b'a'..=b'f' => byte - b'a' + 10,
        _ => 0,
    }
}

/// Appends the bytes that digits say.
fn push_hex(bytes: &mut Vec<u8>, digits: &str) -> Result<(), AllocError> {
    for pair in digits.as_bytes().chunks(2) {
        if let [high, low] = pair {
            bytes.push((digit(*high) << 4) | digit(*low))?;
        }
    }
    Ok(())
}

/// The bytes that lines of digits say.
pub fn bytes_of(alloc: Global, lines: &[&str]) -> Result<Vec<u8>, AllocError> {
    let mut bytes = Vec::new(alloc);
    for line in lines {
        push_hex(&mut bytes, *line)?;
    }
    Ok(bytes)
}

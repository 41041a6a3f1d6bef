//! The bytes in parts.

use crate::case::Part;
use crate::fault::CaseFault;
use std::alloc::AllocError;

/// Reads a byte from a hexadecimal number.
fn byte_in(part: &Part, text: &str) -> Result<u8, CaseFault> {
    match u8::from_str_radix(text, 16) {
        Ok(byte) => Ok(byte),
        Err(_) => Err(part.malformed("a byte is wanted")),
    }
}

/// Appends the bytes of hexadecimal numbers.
fn push_hex(bytes: &mut Vec<u8>, part: &Part) -> Result<(), CaseFault> {
    for text in part.arguments().split(' ') {
        bytes.push(byte_in(part, text)?)?;
    }
    Ok(())
}

/// Appends `count` copies of a byte.
fn fill(bytes: &mut Vec<u8>, count: usize, byte: u8) -> Result<(), AllocError> {
    let length = bytes.len().saturating_add(count);
    bytes.resize(length, byte)
}

/// Appends a byte as often as a part says.
fn push_times(bytes: &mut Vec<u8>, part: &Part) -> Result<(), CaseFault> {
    let Some((count, byte)) = part.arguments().split_once(' ') else {
        return Err(part.malformed("a number and a byte are wanted"));
    };
    let Ok(count) = count.parse::<usize>() else {
        return Err(part.malformed("a number is wanted"));
    };
    fill(bytes, count, byte_in(part, byte)?)?;
    Ok(())
}

/// Appends the bytes of a part.
///
/// | Part | What it says |
/// |---|---|
/// | `body` | its lines, the last one without its line feed |
/// | `bytes 0d 0a` | the bytes of these hexadecimal numbers |
/// | `times N 61` | the byte of this hexadecimal number, N times |
///
/// # Errors
/// `Unknown` for another part, `Malformed` if a number cannot be read, and `Memory` if an
/// allocation fails.
pub fn push_bytes(bytes: &mut Vec<u8>, part: &Part) -> Result<(), CaseFault> {
    match part.word() {
        "body" => Ok(bytes.extend_from_slice(part.lines().as_bytes())?),
        "bytes" => push_hex(bytes, part),
        "times" => push_times(bytes, part),
        _ => Err(CaseFault::Unknown { line: part.line() }),
    }
}

//! The bytes of a case's parts, and bytes as text.

use case_tables::{Case, CaseFault, Given, Part, push_bytes as push_bytes_of};
use std::alloc::Global;

/// Reads the number after the word of a part.
pub fn number_of(part: &Part) -> Result<usize, CaseFault> {
    match part.arguments().parse::<usize>() {
        Ok(number) => Ok(number),
        Err(_) => Err(part.malformed("a number is wanted")),
    }
}

/// Adds the text of a part, repeated.
fn push_repeated(bytes: &mut Vec<u8>, part: &Part) -> Result<(), CaseFault> {
    for _ in 0..number_of(part)? {
        bytes.extend_from_slice(part.text().as_bytes())?;
    }
    Ok(())
}

/// Adds number signs.
fn push_signs(bytes: &mut Vec<u8>, part: &Part) -> Result<(), CaseFault> {
    let length = bytes.len().saturating_add(number_of(part)?);
    Ok(bytes.resize(length, b'#')?)
}

/// Adds the bytes of a part of a script.
///
/// | Part | What it says |
/// |---|---|
/// | `script` | its lines |
/// | `open` | its lines, the last one without its line feed |
/// | `bytes 0d 0a` | the bytes of these hexadecimal numbers |
/// | `repeat N` | its lines, N times |
/// | `signs N` | N number signs |
fn push_part(script: &mut Vec<u8>, part: &Part) -> Result<(), CaseFault> {
    match part.word() {
        "script" => Ok(script.extend_from_slice(part.text().as_bytes())?),
        "open" => Ok(script.extend_from_slice(part.lines().as_bytes())?),
        "repeat" => push_repeated(script, part),
        "signs" => push_signs(script, part),
        _ => push_bytes_of(script, part),
    }
}

/// Returns the script in the parts of a case; its other parts must have one of these words.
pub fn script_of(alloc: Global, case: &Case, others: &[&str]) -> Result<Vec<u8>, CaseFault> {
    let mut script = Vec::new(alloc);
    for part in case.parts() {
        if !(&*others).contains(&part.word()) {
            push_part(&mut script, part)?;
        }
    }
    Ok(script)
}

/// Adds bytes as text; marks a last line without a line feed.
pub fn push_bytes(given: &mut Given, bytes: &[u8]) {
    given.push_bytes(bytes);
    if !matches!(bytes.last(), None | Some(b'\n')) {
        given.push("\n(without a line feed)\n");
    }
}

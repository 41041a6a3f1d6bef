//! Values, bytes and headers, as lines.

use case_tables::Given;
use lambda_wire::Headers;
use script::Draft;
use std::alloc::AllocError;
use std::fmt::Debug;

/// Adds a value as a line.
pub fn tell<T: Debug>(given: &mut Given, value: &T) {
    given.show(value);
    given.push("\n");
}

/// Adds bytes as a line; they contain no line feed.
pub fn push_line(given: &mut Given, bytes: &[u8]) {
    given.push_bytes(bytes);
    given.push("\n");
}

/// Adds headers, one per line.
pub fn push_headers(given: &mut Given, headers: &Headers) {
    let Ok(map) = headers.to_map(given.alloc()) else {
        given.cut();
        return;
    };
    for (name, value) in map.iter() {
        given.push(name.as_str());
        given.push(": ");
        push_line(given, value.as_bytes());
    }
}

/// Takes a text, piece by piece.
pub fn taken(mut draft: Draft) -> Result<Vec<u8>, AllocError> {
    let mut text = draft.take()?;
    while !draft.is_over() {
        let piece = draft.take()?;
        text.extend_from_slice(piece.as_slice())?;
    }
    Ok(text)
}

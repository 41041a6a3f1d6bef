//! The parts of a case that are steps.

use case_tables::{CaseFault, Given, Part};
use std::alloc::{AllocError, Global};

/// How a step went.
#[derive(Clone, Copy, PartialEq, Eq)]
pub enum Progress {
    /// The next step may follow.
    On,
    /// What it waited for did not come, so no step follows.
    Stuck,
}

/// Splits the arguments of a part into the first word and the rest.
pub fn split_word(arguments: &str) -> (&str, &str) {
    arguments.split_once(' ').unwrap_or((arguments, ""))
}

/// Reads a number from the text of a part.
pub fn number(part: &Part, text: &str) -> Result<u32, CaseFault> {
    match text.parse::<u32>() {
        Ok(number) => Ok(number),
        Err(_) => Err(part.malformed("a number is wanted")),
    }
}

/// Adds a line with its end: a carriage return and a line feed, or nothing if it ends with `\`.
fn push_with_end(bytes: &mut Vec<u8>, line: &str) -> Result<(), AllocError> {
    let (line, end) = match line.strip_suffix('\\') {
        Some(line) => (line, ""),
        None => (line, "\r\n"),
    };
    bytes.extend_from_slice(line.as_bytes())?;
    bytes.extend_from_slice(end.as_bytes())
}

/// Returns the bytes of a part: each of its lines ends with a carriage return and a line feed,
/// except that a line that ends with `\` has no end.
pub fn bytes_of(alloc: Global, part: &Part) -> Result<Vec<u8>, AllocError> {
    let mut bytes = Vec::new(alloc);
    for line in part.text().split_terminator('\n') {
        push_with_end(&mut bytes, line)?;
    }
    Ok(bytes)
}

/// Returns a request that closes its connection; its body is the lines of a part, without the end
/// of the last.
///
/// # Errors
/// Only `Memory`, if an allocation fails.
pub fn request_of(alloc: Global, method: &str, path: &str, body: &str) -> Result<Given, CaseFault> {
    let body = body.strip_suffix('\n').unwrap_or(body);
    let mut request = Given::new(alloc);
    request.push(method);
    request.push(" ");
    request.push(path);
    request.push(" HTTP/1.1\r\nHost: h\r\nConnection: close\r\nContent-Length: ");
    request.print(&body.len());
    request.push("\r\n\r\n");
    request.push(body);
    request.end()?;
    Ok(request)
}

/// Reads the number of entries from the counts of a service.
pub fn entries_in(shown: &str) -> Option<u64> {
    let (_, behind) = shown.split_once("\"entries\":")?;
    behind.split(',').next()?.parse::<u64>().ok()
}

/// Adds a line about something with a name.
pub fn push_line(given: &mut Given, name: &str, what: &str) {
    given.push(name);
    given.push(": ");
    given.line(what);
}

//! What a handler gets, and what it posts.

use crate::shown::{push_line, tell};
use bytes::Bytes;
use case_tables::{Case, CaseFault, Given, Part};
use handover::{AnswerHead, Request, read_answer, write_head};
use http_header::{HeaderMap, HeaderName, HeaderNameError, HeaderValue, HeaderValueError};
use std::alloc::Global;

fn name_of(alloc: Global, part: &Part, text: &str) -> Result<HeaderName, CaseFault> {
    match HeaderName::from_bytes(alloc, text.as_bytes()) {
        Ok(name) => Ok(name),
        Err(HeaderNameError::Invalid) => Err(part.malformed("a field has no name")),
        Err(HeaderNameError::OutOfMemory) => Err(CaseFault::Memory),
    }
}

fn value_of(alloc: Global, part: &Part, text: &str) -> Result<HeaderValue, CaseFault> {
    match HeaderValue::from_bytes(alloc, text.as_bytes()) {
        Ok(value) => Ok(value),
        Err(HeaderValueError::Invalid) => Err(part.malformed("no field has this value")),
        Err(HeaderValueError::OutOfMemory) => Err(CaseFault::Memory),
    }
}

/// Adds the field of a line.
fn add(alloc: Global, part: &Part, map: &mut HeaderMap, line: &str) -> Result<(), CaseFault> {
    let (name, value) = line.split_once(": ").unwrap_or((line, ""));
    let name = name_of(alloc, part, name)?;
    let value = value_of(alloc, part, value)?;
    match map.append(name, value) {
        Ok(_) => Ok(()),
        Err(_) => Err(CaseFault::Memory),
    }
}

/// Reads lines as fields.
fn fields_of(alloc: Global, part: &Part, lines: &str) -> Result<HeaderMap, CaseFault> {
    let mut map = HeaderMap::new(alloc);
    for line in lines.split('\n') {
        if !line.is_empty() {
            add(alloc, part, &mut map, line)?;
        }
    }
    Ok(map)
}

fn number_in(part: &Part, text: &str) -> Result<u64, CaseFault> {
    match text.parse::<u64>() {
        Ok(number) => Ok(number),
        Err(_) => Err(part.malformed("a number is wanted")),
    }
}

fn port_in(part: &Part, text: &str) -> Result<u16, CaseFault> {
    match text.parse::<u16>() {
        Ok(port) => Ok(port),
        Err(_) => Err(part.malformed("a port is wanted")),
    }
}

/// Adds the line of a request.
fn give_request(part: &Part, given: &mut Given) -> Result<(), CaseFault> {
    let alloc = given.alloc();
    let (id, rest) = part.arguments().split_once(' ').unwrap_or(("", ""));
    let (port, rest) = rest.split_once(' ').unwrap_or(("", ""));
    let (method, target) = rest.split_once(' ').unwrap_or(("", ""));
    let headers = fields_of(alloc, part, part.lines())?;
    let request = Request {
        head: write_head(alloc, port_in(part, port)?, method, target, &headers)?,
        body: Bytes::from_static("".as_bytes()),
    };
    let line = request.line(alloc, number_in(part, id)?)?;
    given.push_bytes(line.as_slice());
    Ok(())
}

fn give_head(head: &AnswerHead, given: &mut Given) {
    tell(given, &head.status);
    for field in &head.fields {
        given.push(field.0.as_str());
        given.push(": ");
        push_line(given, field.1.as_bytes());
    }
}

/// Adds the head of an answer, or its fault.
fn give_answer(part: &Part, given: &mut Given) -> Result<(), CaseFault> {
    let alloc = given.alloc();
    let headers = fields_of(alloc, part, part.lines())?;
    match read_answer(alloc, &headers) {
        Ok(head) => give_head(&head, given),
        Err(fault) => tell(given, &fault),
    }
    Ok(())
}

/// Adds what the parts of a case give: `request ID PORT METHOD TARGET` with its fields gives the line with which a
/// handler gets it, `answer` with the fields of a post the head of the answer or the fault.
pub fn give(case: &Case, given: &mut Given) -> Result<(), CaseFault> {
    for part in case.parts() {
        match part.word() {
            "request" => give_request(part, given)?,
            "answer" => give_answer(part, given)?,
            _ => return Err(CaseFault::Unknown { line: part.line() }),
        }
    }
    Ok(())
}

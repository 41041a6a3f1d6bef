//! The text of a request, as a client sends it: a line with the method, the target and the version,
//! header lines, and after an empty line the body.

use bytes::Bytes;
use case_tables::{CaseFault, Part, push_bytes};
use http::Method;
use http::method::MethodError;
use http::request::Parts;
use http_header::{HeaderMap, HeaderName, HeaderNameError, HeaderValue, HeaderValueError};
use http_uri::{Uri, UriError};
use std::alloc::Global;

fn method_of(alloc: Global, part: &Part, text: &str) -> Result<Method, CaseFault> {
    match Method::from_bytes(alloc, text.as_bytes()) {
        Ok(method) => Ok(method),
        Err(MethodError::OutOfMemory) => Err(CaseFault::Memory),
        Err(_) => Err(part.malformed("a method is wanted")),
    }
}

fn target_of(alloc: Global, part: &Part, text: &str) -> Result<Uri, CaseFault> {
    match Uri::from_str(alloc, text) {
        Ok(uri) => Ok(uri),
        Err(UriError::OutOfMemory) => Err(CaseFault::Memory),
        Err(_) => Err(part.malformed("a target is wanted")),
    }
}

fn name_of(alloc: Global, part: &Part, text: &str) -> Result<HeaderName, CaseFault> {
    match HeaderName::from_bytes(alloc, text.as_bytes()) {
        Ok(name) => Ok(name),
        Err(HeaderNameError::OutOfMemory) => Err(CaseFault::Memory),
        Err(_) => Err(part.malformed("a header's name is wanted")),
    }
}

fn value_of(alloc: Global, part: &Part, text: &str) -> Result<HeaderValue, CaseFault> {
    match HeaderValue::from_str(alloc, text) {
        Ok(value) => Ok(value),
        Err(HeaderValueError::OutOfMemory) => Err(CaseFault::Memory),
        Err(HeaderValueError::Invalid) => Err(part.malformed("a header's value is wanted")),
    }
}

/// Returns a head without headers.
fn bare_head(alloc: Global, method: Method, target: Uri) -> Parts {
    let mut head = Parts::new(alloc);
    head.method = method;
    head.uri = target;
    head
}

/// Returns the head of a request with this method and this target, without headers.
pub fn head_of(alloc: Global, part: &Part, method: &str, target: &str) -> Result<Parts, CaseFault> {
    let method = method_of(alloc, part, method)?;
    match target_of(alloc, part, target) {
        Ok(target) => Ok(bare_head(alloc, method, target)),
        Err(fault) => Err(fault),
    }
}

/// Reads a request's first line into a head without headers.
fn first_head(alloc: Global, part: &Part, line: &str) -> Result<Parts, CaseFault> {
    let Some((method, rest)) = line.split_once(' ') else {
        return Err(part.malformed("a request is wanted"));
    };
    let Some(target) = rest.strip_suffix(" HTTP/1.1") else {
        return Err(part.malformed("a request of HTTP/1.1 is wanted"));
    };
    head_of(alloc, part, method, target)
}

/// Adds the header of a line. Its value is everything after the colon and one space.
fn add_header(
    alloc: Global,
    part: &Part,
    headers: &mut HeaderMap<HeaderValue>,
    line: &str,
) -> Result<(), CaseFault> {
    let Some((name, value)) = line.split_once(": ") else {
        return Err(part.malformed("a header is wanted"));
    };
    let name = name_of(alloc, part, name)?;
    let value = value_of(alloc, part, value)?;
    match headers.append(name, value) {
        Ok(_) => Ok(()),
        Err(_) => Err(CaseFault::Memory),
    }
}

/// Adds the headers of the lines after the first.
fn add_headers(
    alloc: Global,
    part: &Part,
    headers: &mut HeaderMap<HeaderValue>,
    lines: &str,
) -> Result<(), CaseFault> {
    for line in lines.split('\n').skip(1) {
        add_header(alloc, part, headers, line)?;
    }
    Ok(())
}

/// Reads the head from the lines before the empty line.
pub fn read_head(alloc: Global, part: &Part, lines: &str) -> Result<Parts, CaseFault> {
    let first = lines.split('\n').next().unwrap_or("");
    let mut head = first_head(alloc, part, first)?;
    match add_headers(alloc, part, &mut head.headers, lines) {
        Ok(()) => Ok(head),
        Err(fault) => Err(fault),
    }
}

/// Whether a part adds bytes to the body of the request before it.
fn is_of_body(part: &Part) -> bool {
    part.word() != "request" && part.word() != "methods"
}

/// Adds the bytes of the parts before the next request.
fn add_bytes(body: &mut Vec<u8>, parts: &[Part]) -> Result<(), CaseFault> {
    for part in parts {
        if !is_of_body(part) {
            break;
        }
        push_bytes(body, part)?;
    }
    Ok(())
}

/// Reads the body of a request: this beginning, then the bytes of the parts before the next
/// request.
pub fn read_body(alloc: Global, begun: &str, parts: &[Part]) -> Result<Bytes, CaseFault> {
    let mut body = Vec::from_slice(alloc, begun.as_bytes())?;
    add_bytes(&mut body, parts)?;
    Ok(Bytes::from_vec(body)?)
}

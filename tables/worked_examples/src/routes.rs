//! Requests: the port that each arrives on, and the decision about it.

mod decided;
mod handing;
mod methods;
mod port;
mod request;

use crate::routes::decided::push_decided;
use crate::routes::handing::push_handing;
use crate::routes::methods::push_methods;
use crate::routes::port::{PortOfCase, port_of_case};
use crate::routes::request::{read_body, read_head};
use bytes::Bytes;
use case_tables::{Case, CaseFault, Given, Part};

/// Adds the decision about a request with this body, whose head is in these lines of a part.
fn push_headed(
    port: &PortOfCase,
    part: &Part,
    lines: &str,
    body: &Bytes,
    given: &mut Given,
) -> Result<(), CaseFault> {
    let head = read_head(given.alloc(), part, lines)?;
    push_decided(port, &head, body, given);
    Ok(())
}

/// Adds the decision about the request in a part; the parts after it may extend its body.
fn push_request(
    port: &PortOfCase,
    part: &Part,
    others: &[Part],
    given: &mut Given,
) -> Result<(), CaseFault> {
    let text = part.lines();
    let (lines, body) = text.split_once("\n\n").unwrap_or((text, ""));
    let body = read_body(given.alloc(), body, others)?;
    push_headed(port, part, lines, &body, given)
}

/// Adds the decisions about the requests in a part, and returns whether the next part may extend a
/// body.
fn push_part(
    port: &PortOfCase,
    part: &Part,
    others: &[Part],
    has_body: bool,
    given: &mut Given,
) -> Result<bool, CaseFault> {
    match part.word() {
        "request" => {
            push_request(port, part, others, given)?;
            Ok(true)
        }
        "handing" => {
            push_handing(port, part, given)?;
            Ok(false)
        }
        "methods" => {
            push_methods(port, part, given)?;
            Ok(false)
        }
        _ if has_body => Ok(true),
        _ => Err(CaseFault::Unknown { line: part.line() }),
    }
}

/// Adds the decisions about the requests of a case.
fn push_requests(port: &PortOfCase, parts: &[Part], given: &mut Given) -> Result<(), CaseFault> {
    let mut has_body = false;
    for place in 0..parts.len() {
        has_body = push_part(port, &parts[place], &parts[place + 1..], has_body, given)?;
    }
    Ok(())
}

/// Returns the first part, which must have this name, and the other parts.
fn cut_part<'c>(
    parts: &'c [Part],
    word: &'static str,
) -> Result<(&'c Part, &'c [Part]), CaseFault> {
    match parts.split_first() {
        Some((part, others)) if part.word() == word => Ok((part, others)),
        _ => Err(CaseFault::Missing { part: word }),
    }
}

/// Adds the decisions about the requests of a case.
///
/// | Part | What it says |
/// |---|---|
/// | `config` | the configuration, the first part of a case |
/// | `port account`, `port environment E` | the port, the second part of a case |
/// | `request` | a request, which gives a line |
/// | `body`, `bytes`, `times` | further bytes of the body of the request before it |
/// | `handing` | the head of a request, which gives a line: whether it may be handed over, or is a handler's own |
/// | `methods M M ..` | a target a line, each of which gives a word for each of these methods |
pub fn give(case: &Case, given: &mut Given) -> Result<(), CaseFault> {
    let (config, parts) = cut_part(case.parts(), "config")?;
    let (port, parts) = cut_part(parts, "port")?;
    let port = port_of_case(given.alloc(), config, port)?;
    push_requests(&port, parts, given)
}

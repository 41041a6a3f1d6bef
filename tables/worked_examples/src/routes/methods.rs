//! Targets with each method: whether a port has the path, and whether the path accepts the method.

use crate::routes::decided::decided;
use crate::routes::port::PortOfCase;
use crate::routes::request::head_of;
use bytes::Bytes;
use case_tables::{CaseFault, Given, Part};
use http::request::Parts;
use http_routes::Decision;

/// Returns the word for a decision: 404 if there is no such path, 405 if the path accepts only
/// other methods, and `yes` if it accepts this one.
fn word_of(decision: &Decision) -> &'static str {
    let Decision::Reply(reply) = decision else {
        return "yes";
    };
    let body = reply.body.as_slice();
    if body.starts_with(b"{\"errorMessage\":\"No such resource\"") {
        return "404";
    }
    match reply.status {
        405 => "405",
        _ => "yes",
    }
}

/// Adds the word for the decision about a request with this head and no body.
fn push_word(port: &PortOfCase, head: &Parts, given: &mut Given) {
    match decided(given.alloc(), port, head, &Bytes::new()) {
        Ok(decision) => given.push(word_of(&decision)),
        Err(_) => given.cut(),
    }
}

/// Adds the word for a method.
fn push_method(
    port: &PortOfCase,
    part: &Part,
    method: &str,
    target: &str,
    given: &mut Given,
) -> Result<(), CaseFault> {
    let head = head_of(given.alloc(), part, method, target)?;
    push_word(port, &head, given);
    Ok(())
}

/// Adds the line of a target: a word for each method.
fn push_target(
    port: &PortOfCase,
    part: &Part,
    target: &str,
    given: &mut Given,
) -> Result<(), CaseFault> {
    let mut is_first = true;
    for method in part.arguments().split(' ') {
        if !is_first {
            given.push(" ");
        }
        push_method(port, part, method, target, given)?;
        is_first = false;
    }
    given.push("\n");
    Ok(())
}

/// Adds a line for each target of a part.
pub fn push_methods(port: &PortOfCase, part: &Part, given: &mut Given) -> Result<(), CaseFault> {
    for target in part.lines().split('\n') {
        push_target(port, part, target, given)?;
    }
    Ok(())
}

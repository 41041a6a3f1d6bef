//! The headers of replies.

ghost use Rattle.std.specs.Prelude.{IfOk};
ghost use Rattle.http_header.specs.FieldValue.{IsFieldValue};

use crate::shown;
use crate::wire::arguments::Arguments;
use case_tables::{CaseFault, Given};
use http_header::{HeaderValue, HeaderValueError};
use lambda_wire::{
    Headers, error_headers, event_headers, invoke_headers, json_headers, next_headers,
    registered_headers,
};
use std::alloc::{AllocError, Global};

/// The calls, and the arguments that each needs.
const CALLS: [(&str, &[&str]); 7] = [
    ("json", &[]),
    ("next", &["request", "deadline", "arn", "trace"]),
    ("event", &["event"]),
    ("registered", &["extension"]),
    ("invoke", &["request", "failed"]),
    ("error", &["type"]),
    ("request-error", &["type", "request"]),
];

/// Returns the text of an argument that becomes the value of a header.
pub fn field<'a>(alloc: Global, arguments: &'a Arguments, name: &str) -> Result<&'a str, CaseFault>
    ensures { IfOk result (λ text. IsFieldValue text.now) }
{
    let text = arguments.text(name);
    match HeaderValue::from_str(alloc, text) {
        Ok(_value) => Ok(text),
        Err(HeaderValueError::OutOfMemory) => Err(CaseFault::Memory),
        Err(HeaderValueError::Invalid) => Err(arguments.fault("no header holds this text")),
    }
}

/// Returns headers, unless an allocation failed.
fn made(headers: Result<Headers, AllocError>) -> Result<Headers, CaseFault> {
    match headers {
        Ok(headers) => Ok(headers),
        Err(_) => Err(CaseFault::Memory),
    }
}

fn next(alloc: Global, arguments: &Arguments) -> Result<Headers, CaseFault> {
    let request = field(alloc, arguments, "request")?;
    let arn = field(alloc, arguments, "arn")?;
    let trace = field(alloc, arguments, "trace")?;
    let deadline = arguments.number("deadline");
    let arn = String::from_str(alloc, arn)?;
    made(next_headers(alloc, request, deadline, arn, Some(trace)))
}

fn event(alloc: Global, arguments: &Arguments) -> Result<Headers, CaseFault> {
    made(event_headers(alloc, field(alloc, arguments, "event")?))
}

fn registered(alloc: Global, arguments: &Arguments) -> Result<Headers, CaseFault> {
    made(registered_headers(alloc, field(alloc, arguments, "extension")?))
}

fn invoke(alloc: Global, arguments: &Arguments) -> Result<Headers, CaseFault> {
    let request = field(alloc, arguments, "request")?;
    made(invoke_headers(alloc, request, arguments.is_true("failed")))
}

fn error(alloc: Global, arguments: &Arguments) -> Result<Headers, CaseFault> {
    made(error_headers(alloc, None, field(alloc, arguments, "type")?))
}

fn request_error(alloc: Global, arguments: &Arguments) -> Result<Headers, CaseFault> {
    let kind = field(alloc, arguments, "type")?;
    let request = field(alloc, arguments, "request")?;
    made(error_headers(alloc, Some(request), kind))
}

/// Returns the headers that a call writes; its arguments are there.
fn headers(alloc: Global, word: &str, arguments: &Arguments) -> Result<Headers, CaseFault> {
    match word {
        "json" => made(json_headers(alloc)),
        "next" => next(alloc, arguments),
        "event" => event(alloc, arguments),
        "registered" => registered(alloc, arguments),
        "invoke" => invoke(alloc, arguments),
        "error" => error(alloc, arguments),
        _ => request_error(alloc, arguments),
    }
}

/// Adds the headers that a call writes.
///
/// | Call | Arguments |
/// |---|---|
/// | `json` | none |
/// | `next` | `request`, `deadline`, `arn`, `trace` |
/// | `event` | `event` |
/// | `registered` | `extension` |
/// | `invoke` | `request`, and `failed`, which is `true` or `false` |
/// | `error` | `type` |
/// | `request-error` | `type`, `request` |
pub fn push_headers(word: &str, arguments: &Arguments, given: &mut Given) -> Result<(), CaseFault> {
    arguments.check_call(&CALLS, word)?;
    let headers = headers(given.alloc(), word, arguments)?;
    shown::push_headers(given, &headers);
    Ok(())
}

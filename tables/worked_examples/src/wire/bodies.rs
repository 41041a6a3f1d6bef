//! The bodies of replies.

use crate::shown::push_line;
use crate::wire::arguments::Arguments;
use case_tables::{CaseFault, Given};
use lambda_wire::{
    status_body, write_fault, write_invoke_event, write_invoke_fault, write_registered,
    write_reservation, write_shutdown_event, write_throttle,
};
use std::alloc::{AllocError, Global};

/// The calls, and the arguments that each needs.
const CALLS: [(&str, &[&str]); 8] = [
    ("status", &[]),
    ("reservation", &[]),
    ("throttle", &["reason"]),
    ("invoke-event", &["deadline", "arn", "request", "trace"]),
    ("shutdown-event", &["deadline", "reason"]),
    ("registered", &["function", "handler"]),
    ("fault", &["type", "message"]),
    ("invoke-fault", &["form", "message"]),
];

/// Returns the count of a reservation, if it is given.
fn count_of(arguments: &Arguments) -> Result<Option<u32>, CaseFault> {
    let Some(count) = arguments.number_if_given("count") else {
        return Ok(None);
    };
    match u32::try_from(count) {
        Ok(count) => Ok(Some(count)),
        Err(_) => Err(arguments.fault("a count is too large")),
    }
}

fn invoke_event(alloc: Global, arguments: &Arguments) -> Result<Vec<u8>, AllocError> {
    let deadline = arguments.number("deadline");
    let arn = arguments.text("arn");
    let request = arguments.text("request");
    let trace = arguments.text("trace");
    write_invoke_event(alloc, deadline, arn, request, trace)
}

fn shutdown_event(alloc: Global, arguments: &Arguments) -> Result<Vec<u8>, AllocError> {
    let deadline = arguments.number("deadline");
    write_shutdown_event(alloc, deadline, arguments.text("reason"))
}

fn registered(alloc: Global, arguments: &Arguments) -> Result<Vec<u8>, AllocError> {
    let account = arguments.text_if_given("account");
    let function = arguments.text("function");
    write_registered(alloc, account, function, arguments.text("handler"))
}

fn fault(alloc: Global, arguments: &Arguments) -> Result<Vec<u8>, AllocError> {
    write_fault(alloc, arguments.text("message"), arguments.text("type"))
}

/// Returns the body that a call writes; every argument that is given must be valid.
fn plain_body(alloc: Global, word: &str, arguments: &Arguments) -> Result<Vec<u8>, AllocError> {
    match word {
        "status" => status_body().as_slice().to_vec(alloc),
        "throttle" => write_throttle(alloc, arguments.text("reason")),
        "invoke-event" => invoke_event(alloc, arguments),
        "shutdown-event" => shutdown_event(alloc, arguments),
        "registered" => registered(alloc, arguments),
        _ => fault(alloc, arguments),
    }
}

/// Adds a written body as a line, unless an allocation failed.
fn push_written(given: &mut Given, body: Result<Vec<u8>, AllocError>) {
    match body {
        Ok(body) => push_line(given, body.as_slice()),
        Err(_) => given.cut(),
    }
}

/// Adds the body that a call writes.
///
/// | Call | Arguments |
/// |---|---|
/// | `status` | none |
/// | `reservation` | `count`, or none if there is no reservation |
/// | `throttle` | `reason` |
/// | `invoke-event` | `deadline`, `arn`, `request`, `trace` |
/// | `shutdown-event` | `deadline`, `reason` |
/// | `registered` | `account` if it was asked for, `function`, `handler` |
/// | `fault` | `type`, `message` |
/// | `invoke-fault` | `form`, which is `User`, `NotFound` or `Service`, and `message` |
pub fn push_body(word: &str, arguments: &Arguments, given: &mut Given) -> Result<(), CaseFault> {
    arguments.check_call(&CALLS, word)?;
    let alloc = given.alloc();
    match word {
        "reservation" => push_written(given, write_reservation(alloc, count_of(arguments)?)),
        "invoke-fault" => {
            let form = arguments.form()?;
            push_written(
                given,
                write_invoke_fault(alloc, form, arguments.text("message")),
            );
        }
        _ => push_written(given, plain_body(alloc, word, arguments)),
    }
    Ok(())
}

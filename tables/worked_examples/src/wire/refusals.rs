//! Whole replies that report a refusal.

use crate::wire::arguments::Arguments;
use crate::wire::headers::field;
use crate::wire::reply_text::push_reply;
use case_tables::{CaseFault, Given};
use lambda_wire::{Reply, fault_reply, invoke_fault_reply};
use std::alloc::{AllocError, Global};

fn status_of(arguments: &Arguments) -> Result<u16, CaseFault> {
    match u16::try_from(arguments.number("status")) {
        Ok(status) => Ok(status),
        Err(_) => Err(arguments.fault("no status")),
    }
}

/// Returns a reply, unless an allocation failed.
fn made(reply: Result<Reply, AllocError>) -> Result<Reply, CaseFault> {
    match reply {
        Ok(reply) => Ok(reply),
        Err(_) => Err(CaseFault::Memory),
    }
}

fn fault(alloc: Global, status: u16, arguments: &Arguments) -> Result<Reply, CaseFault> {
    let message = arguments.text("message");
    made(fault_reply(alloc, status, message, arguments.text("type")))
}

fn invoke_fault(alloc: Global, status: u16, arguments: &Arguments) -> Result<Reply, CaseFault> {
    let form = arguments.form()?;
    let kind = field(alloc, arguments, "type")?;
    made(invoke_fault_reply(alloc, status, kind, form, arguments.text("message")))
}

/// Returns the reply that a call makes.
fn refusal(alloc: Global, word: &str, arguments: &Arguments) -> Result<Reply, CaseFault> {
    arguments.check(&["status", "type", "message"])?;
    let status = status_of(arguments)?;
    match word {
        "fault" => fault(alloc, status, arguments),
        "invoke-fault" => invoke_fault(alloc, status, arguments),
        _ => Err(arguments.unknown()),
    }
}

/// Adds the reply that a call makes.
///
/// | Call | Arguments |
/// |---|---|
/// | `fault`, on an environment's port | `status`, `type`, `message` |
/// | `invoke-fault`, on the account's | `status`, `type`, `form` as for the body, `message` |
pub fn push_refusal(word: &str, arguments: &Arguments, given: &mut Given) -> Result<(), CaseFault> {
    let reply = refusal(given.alloc(), word, arguments)?;
    push_reply(given, &reply);
    Ok(())
}

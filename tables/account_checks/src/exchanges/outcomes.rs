//! The outcomes of futures and of requests, as lines.

ghost use Rattle.std.specs.Prelude.{IfOk};

use crate::lines::malformed;
use call_model::{Answer, Ticket};
use case_tables::{CaseFault, Given};
use futures::executor::block_on;
use futures::future::{Future, FutureExt, poll_immediate, try_join3};
use http_body_util::Collected;
use lambda_wire::Reply;
use long_poll::{BellLost, ExchangeFault, OpenPoll, Outcome};
use std::alloc::{AllocError, AllocGlobal};
use std::random::RandomSource;
use std::str;
use std::sync::Wait;
use usage_ledger::Ledgers;

/// Runs a future to its end. An executor fails only if an allocation fails.
pub fn finished<R: Wait + RandomSource + AllocGlobal, F: Future>(
    rt: &R,
    future: F,
) -> Result<F::Output, CaseFault>
    requires { F.can_poll future }
{
    match block_on(rt, future) {
        Ok(output) => Ok(output),
        Err(_) => Err(CaseFault::Memory),
    }
}

/// Runs a future to its end, or drops it as soon as it waits and returns `None`.
fn made<R: Wait + RandomSource + AllocGlobal, F: Future>(
    rt: &R,
    future: F,
    drops: bool,
) -> Result<Option<F::Output>, CaseFault>
    requires { F.can_poll future }
{
    if drops {
        return finished(rt, poll_immediate(future));
    }
    match finished(rt, future) {
        Ok(output) => Ok(Some(output)),
        Err(fault) => Err(fault),
    }
}

/// Whether a reply says that its call was refused because an allocation failed.
fn lacks_memory(reply: &Reply) -> bool {
    reply.status == 500
        && str::from_utf8(reply.body.as_slice()).is_ok_and(|text| text.contains("Out of memory"))
}

/// Returns the outcome of an exchange. A reply that an allocation failed becomes a fault, so that
/// no other exchange waits for the refused call.
fn with_memory<H: Drop, L: Ledgers>(
    came: Result<Outcome<H, L>, ExchangeFault>,
) -> Result<Outcome<H, L>, ExchangeFault> {
    if let Ok(Outcome::Reply(reply, _)) = &came
        && lacks_memory(reply)
    {
        return Err(ExchangeFault::OutOfMemory);
    }
    came
}

/// Returns the reply to a request; its part begins at this line.
fn reply_of<H: Drop, L: Ledgers>(line: u64, outcome: Outcome<H, L>) -> Result<Reply, CaseFault> {
    match outcome {
        Outcome::Reply(reply, _token) => Ok(reply),
        Outcome::History(_) | Outcome::Trace(_) => Err(malformed(line, "three that have a reply are wanted")),
    }
}

/// Returns the replies to three requests; their part begins at this line.
fn replies_of<H: Drop, L: Ledgers>(
    line: u64,
    outcomes: (Outcome<H, L>, Outcome<H, L>, Outcome<H, L>),
) -> Result<(Reply, Reply, Reply), CaseFault> {
    let (one, other, last) = outcomes;
    let one = reply_of(line, one)?;
    let other = reply_of(line, other)?;
    Ok((one, other, reply_of(line, last)?))
}

/// Makes three exchanges at the same time; their part begins at this line.
fn made_together<
    R: Wait + RandomSource + AllocGlobal,
    H: Drop,
    L: Ledgers,
    F: Future<Output = Result<Outcome<H, L>, ExchangeFault>>,
>(rt: &R, line: u64, first: F, second: F, third: F) -> Result<(Reply, Reply, Reply), CaseFault>
    requires first { F.can_poll first }
    requires second { F.can_poll second }
    requires third { F.can_poll third }
{
    let three = try_join3(
        first.map(with_memory),
        second.map(with_memory),
        third.map(with_memory),
    );
    match finished(rt, three)? {
        Ok(outcomes) => replies_of(line, outcomes),
        Err(ExchangeFault::OutOfMemory) => Err(CaseFault::Memory),
        Err(_) => Err(malformed(line, "three that are answered are wanted")),
    }
}

/// Makes three exchanges at the same time, if all three could be begun.
pub fn made_at_once<
    R: Wait + RandomSource + AllocGlobal,
    H: Drop,
    L: Ledgers,
    F: Future<Output = Result<Outcome<H, L>, ExchangeFault>>,
>(
    rt: &R,
    line: u64,
    first: Result<F, CaseFault>,
    second: Result<F, CaseFault>,
    third: Result<F, CaseFault>,
) -> Result<(Reply, Reply, Reply), CaseFault>
    requires first { IfOk first F.can_poll }
    requires second { IfOk second F.can_poll }
    requires third { IfOk third F.can_poll }
{
    let first = first?;
    let second = second?;
    made_together(rt, line, first, second, third?)
}

/// Adds the headers of a reply.
fn push_headers(given: &mut Given, reply: &Reply) {
    let Ok(map) = reply.headers.to_map(given.alloc()) else {
        given.cut();
        return;
    };
    for (name, value) in map.iter() {
        given.push("  ");
        given.push(name.as_str());
        given.push(": ");
        given.push_bytes(value.as_bytes());
        given.push("\n");
    }
}

/// Adds a reply: its status, its headers, and its body if it has one.
fn push_reply(given: &mut Given, reply: &Reply) {
    given.push("  ");
    given.print(&reply.status);
    given.push("\n");
    push_headers(given, reply);
    given.push("  =");
    given.push_bytes(reply.body.as_slice());
    given.push("\n");
}

/// Adds the reply to a request.
fn push_answer(given: &mut Given, reply: &Reply) {
    match lacks_memory(reply) {
        true => given.cut(),
        false => push_reply(given, reply),
    }
}

/// Adds why a request has no reply.
fn push_fault(given: &mut Given, fault: ExchangeFault) {
    match fault {
        ExchangeFault::OutOfMemory => given.cut(),
        ExchangeFault::BodyFailed => given.push("  BodyFailed\n"),
        ExchangeFault::BellLost => given.push("  BellLost\n"),
    }
}

/// Adds the outcome of an exchange. Returns the history or its trace, if that is the outcome.
fn push_came<H: Drop, L: Ledgers>(
    given: &mut Given,
    came: Result<Outcome<H, L>, ExchangeFault>,
) -> Option<H> {
    match came {
        Ok(Outcome::Reply(reply, _token)) => push_answer(given, &reply),
        Ok(Outcome::History(body) | Outcome::Trace(body)) => return Some(body),
        Err(fault) => push_fault(given, fault),
    }
    None
}

/// Makes an exchange, or drops it as soon as it waits, and adds its outcome. Returns the history
/// or its trace, if that is the outcome.
pub fn push_made<
    R: Wait + RandomSource + AllocGlobal,
    H: Drop,
    L: Ledgers,
    F: Future<Output = Result<Outcome<H, L>, ExchangeFault>>,
>(rt: &R, exchange: F, drops: bool, given: &mut Given) -> Option<H>
    requires { F.can_poll exchange }
{
    match made(rt, exchange, drops) {
        Ok(Some(came)) => return push_came(given, came),
        Ok(None) => given.push("  waits\n"),
        Err(_) => given.cut(),
    }
    None
}

/// Adds the data of a body.
pub fn push_collected(given: &mut Given, came: Result<Result<Collected, AllocError>, CaseFault>) {
    match came {
        Ok(Ok(body)) => match body.to_bytes() {
            Ok(bytes) => given.push_bytes(bytes.as_slice()),
            Err(_) => given.cut(),
        },
        _ => given.cut(),
    }
}

/// Adds the Next that the connection of a request has open.
pub fn push_open(given: &mut Given, open: &OpenPoll) {
    if let Some(ticket) = open.ticket() {
        given.push("  open ");
        given.print(&ticket);
        given.push("\n");
    }
}

/// Adds the line of a request, its reply, and the Next that its connection then has open.
fn push_told(given: &mut Given, text: &str, reply: &Reply, open: &OpenPoll) {
    given.line(text);
    push_reply(given, reply);
    push_open(given, open);
}

/// Adds the same for three requests, if all were answered.
pub fn push_three(
    given: &mut Given,
    texts: (&str, &str, &str),
    came: Result<(Reply, Reply, Reply), CaseFault>,
    open: &OpenPoll,
) -> Result<(), CaseFault> {
    let replies = came?;
    push_told(given, texts.0, &replies.0, open);
    push_told(given, texts.1, &replies.1, open);
    push_told(given, texts.2, &replies.2, open);
    Ok(())
}

/// Adds the outcome of a poll for a ticket's answer.
pub fn push_poll(given: &mut Given, ticket: Ticket, came: Result<Answer, BellLost>) {
    given.push("poll ");
    given.print(&ticket);
    given.push(": ");
    given.show(&came);
    given.push("\n");
}

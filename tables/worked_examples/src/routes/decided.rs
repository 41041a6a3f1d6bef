//! The decision about a request, as a line.

ghost use Rattle.std.specs.Prelude.{◌≡◌, [], ◌∷◌, IfOk};
ghost use Rattle.call_model.specs.CallCounts.{request_count};

use crate::routes::port::PortOfCase;
use crate::shown::taken;
use arn_ids::Checked;
use bytes::Bytes;
use call_model::{Answers, Call, Entry, Past, Ticket};
use case_tables::Given;
use entry_blocks::Blocks;
use http::request::Parts;
use http_header::HeaderMap;
use http_routes::{ClockRequest, Decision, Received, Shown, TraceQuery};
use lambda_wire::{PayloadScratch, Reply};
use script::draft_entry;
use std::alloc::{AllocError, Global};

/// The most bytes of a body that a line shows.
const LONGEST_SHOWN: usize = 1000;

/// Decides a request at a port.
pub fn decided(
    alloc: Global,
    port: &PortOfCase,
    head: &Parts,
    body: &Bytes,
) -> Result<Decision, AllocError> {
    let mut scratch = PayloadScratch::new();
    port.side.decide(alloc, &mut scratch, head, &Received::whole(body.clone()?))
}

/// Returns the count in the request identifier of the only call of a history.
fn count_of(entry: &Entry) -> u64
    ensures { result ≡ request_count (entry.now ∷ []) entry.now.call }
{
    match &entry.call {
        Call::Invoke { .. } => 1,
        _ => 0,
    }
}

/// Returns a row of one item.
fn row_of<T: Drop>(alloc: Global, item: T) -> Result<Blocks<T>, AllocError>
    ensures { IfOk result (λ row. row.0 ≡ item ∷ []) }
{
    let mut row = Blocks::open(alloc);
    row.reserve(1)?;
    row.push(item);
    Ok(row)
}

/// Returns the line of a script that a call is read from.
fn line_of(alloc: Global, config: &Checked, call: Call) -> Result<Vec<u8>, AllocError> {
    let entry = Entry {
        moment: 0,
        call,
        answers: Answers::new(Vec::new(alloc)),
        place: None,
    };
    let count = count_of(&entry);
    let entries = row_of(alloc, entry)?;
    let counts = row_of(alloc, count)?;
    let past = Past {
        config,
        salt: 0,
        entries: &entries,
        counts: &counts,
    };
    taken(draft_entry(alloc, &past, 0)?)
}

/// Adds a script's line. If it ends with the request's body and that is long, adds the body's
/// length in bytes instead.
fn push_line(line: &[u8], body: &[u8], given: &mut Given) {
    let line = line.strip_suffix(b"\n").unwrap_or(line);
    match line.strip_suffix(body) {
        Some(front) if body.len() > LONGEST_SHOWN => {
            given.push_bytes(front);
            given.push("(the ");
            given.print(&body.len());
            given.push(" bytes of the body)");
        }
        _ => given.push_bytes(line),
    }
}

/// Adds the line of a call.
fn push_call(config: &Checked, call: Call, body: &[u8], given: &mut Given) {
    given.push("submit ");
    match line_of(given.alloc(), config, call) {
        Ok(line) => push_line(line.as_slice(), body, given),
        Err(_) => given.cut(),
    }
}

/// Adds the error type of the Lambda API, if there is one.
fn push_error_type(headers: &HeaderMap, given: &mut Given) {
    if let Some(kind) = headers.get("x-amzn-errortype") {
        given.push_bytes(kind.as_bytes());
        given.push(" ");
    }
}

/// Adds a refusal: its status, its error type in the Lambda API, and its body.
fn push_refusal(reply: &Reply, given: &mut Given) {
    given.push("refuse ");
    given.print(&reply.status);
    given.push(" ");
    match reply.headers.to_map(given.alloc()) {
        Ok(map) => push_error_type(&map, given),
        Err(_) => given.cut(),
    }
    given.push_bytes(reply.body.as_slice());
}

/// Adds that the history is shown, and the ticket it starts at.
fn push_history(from: Option<Ticket>, given: &mut Given) {
    given.push("show history");
    if let Some(ticket) = from {
        given.push(" from ");
        given.print(&ticket);
    }
}

/// Adds that the trace is shown, the ticket it starts at, and how.
fn push_trace(query: TraceQuery, given: &mut Given) {
    given.push("show trace from ");
    given.print(&query.from);
    if query.follow {
        given.push(" followed");
    }
    if !query.bodies {
        given.push(" without bodies");
    }
}

/// Adds what is shown.
fn push_shown(shown: Shown, given: &mut Given) {
    match shown {
        Shown::Stats => given.push("show stats"),
        Shown::History { from } => push_history(from, given),
        Shown::Trace(query) => push_trace(query, given),
        Shown::Environments => given.push("show environments"),
        Shown::Version => given.push("show version"),
        Shown::Reservation { function } => {
            given.push("show reservation ");
            given.print(&function);
        }
    }
}

/// Adds what is asked of the clock.
fn push_clock(request: ClockRequest, given: &mut Given) {
    match request {
        ClockRequest::Show => given.push("clock show"),
        ClockRequest::Advance { milliseconds } => {
            given.push("clock advance by ");
            given.print(&milliseconds);
        }
        ClockRequest::Pause => given.push("clock pause"),
        ClockRequest::Resume => given.push("clock resume"),
    }
}

/// Adds a decision.
fn push_decision(config: &Checked, decision: Decision, body: &[u8], given: &mut Given) {
    match decision {
        Decision::Submit(call) => push_call(config, call, body, given),
        Decision::Reply(reply) => push_refusal(&reply, given),
        Decision::Show(shown) => push_shown(shown, given),
        Decision::Clock(request) => push_clock(request, given),
    }
}

/// Adds a port's decision about a request, as a line.
pub fn push_decided(port: &PortOfCase, head: &Parts, body: &Bytes, given: &mut Given) {
    match decided(given.alloc(), port, head, body) {
        Ok(decision) => push_decision(&port.config, decision, body.as_slice(), given),
        Err(_) => given.cut(),
    }
    given.push("\n");
}

//! Requests to decide, and replies to render.

ghost use Rattle.std.specs.Prelude.{◌≡◌, true, IfSome};
ghost use Rattle.call_types.specs.Within.{is_body};

use crate::made::{Made, made_since, now};
use account_book::Book;
use arn_ids::{Checked, LONGEST_BODY};
use bytes::Bytes;
use call_model::{Call, Ticket};
use http::request::Parts;
use http::{Method, Request, Uri};
use http_routes::{Decision, Received, Side};
use lambda_wire::{PayloadScratch, read_config};
use service_port::Port;
use std::alloc::Global;
use std::sync::Arc;
use std::time::Clock;

const CONFIG: &str =
    r#"{"account":"123456789012","region":"us-east-2","functions":[{"name":"f","ports":[9001]}]}"#;

const INVOKE: &str = "/2015-03-31/functions/f/invocations";

const RESPONSE: &str =
    "/2018-06-01/runtime/invocation/00000000-0000-8000-8001-000000000001/response";

/// Returns a JSON text of `size` bytes, from two to the longest body's size.
fn body(alloc: Global, size: u64) -> Option<Bytes>
    ensures { IfSome result (λ body. is_body body ≡ true) }
{
    if size < 2 || size > LONGEST_BODY as u64 {
        return None;
    }
    let mut bytes = Vec::with_capacity(alloc, size as usize).ok()?;
    bytes.push(b'"').ok()?;
    bytes.resize(size as usize - 1, b'a').ok()?;
    bytes.push(b'"').ok()?;
    let body = Bytes::from_vec(bytes).ok()?;
    if body.len() > LONGEST_BODY {
        return None;
    }
    Some(body)
}

/// Returns the configuration.
fn config(alloc: Global) -> Option<Arc<Checked>> {
    let setup = read_config(alloc, CONFIG.as_bytes()).ok()?;
    let checked = setup.config.check().ok()?;
    Arc::new(alloc, checked).ok()
}

/// Returns the head of a request for this target.
fn head(alloc: Global, target: &str) -> Option<Parts> {
    let uri = Uri::from_bytes(alloc, target.as_bytes()).ok()?;
    let request = Request::builder(alloc)
        .method(Method::POST)
        .uri(uri)
        .body(());
    let (parts, _) = request.ok()?.into_parts();
    Some(parts)
}

/// Decides a request for this target, `count` times.
fn decide<R: Clock>(
    rt: &R,
    alloc: Global,
    side: &Side,
    target: &str,
    size: u64,
    count: u64,
) -> Option<Made> {
    let body = Received::whole(body(alloc, size)?);
    let parts = head(alloc, target)?;
    let mut scratch = PayloadScratch::new();
    let begun = now(rt);
    let mut decided: u64 = 0;
    for _ in 0..count {
        if let Ok(Decision::Submit(_)) = side.decide(alloc, &mut scratch, &parts, &body) {
            decided = decided.saturating_add(1);
        }
    }
    Some(made_since(rt, begun, decided))
}

/// Decides an Invoke with a body of this size. Returns `None` if memory ran out, or there is no
/// such body.
pub fn decide_invoke<R: Clock>(rt: &R, alloc: Global, size: u64, count: u64) -> Option<Made> {
    let side = Side::open(alloc, config(alloc)?, 0, Port::Account).ok()?;
    decide(rt, alloc, &side, INVOKE, size, count)
}

/// Decides a response, with the same limits.
pub fn decide_response<R: Clock>(rt: &R, alloc: Global, size: u64, count: u64) -> Option<Made> {
    let config = config(alloc)?;
    if config.environments() < 1 {
        return None;
    }
    let side = Side::open(alloc, config, 0, Port::Environment(1)).ok()?;
    decide(rt, alloc, &side, RESPONSE, size, count)
}

/// Returns a book of one invocation, which was delivered and answered.
fn book(alloc: Global, size: u64) -> Option<Book> {
    let config = config(alloc)?;
    let mut book = Book::open(alloc, config, 0, 1_000_000).ok()?;
    if book.config().environments() < 1 || book.config().functions().len() < 1 {
        return None;
    }
    let _next = book.apply(0, Call::RuntimeNext { env: 1 });
    let invoke = Call::Invoke {
        function: 1,
        qualified: false,
        trace: None,
        body: body(alloc, size)?,
    };
    if book.config().functions().len() < 1 {
        return None;
    }
    let _invoke = book.apply(0, invoke);
    let response = Call::Response {
        env: 1,
        id: 1,
        body: body(alloc, size)?,
    };
    if book.config().environments() < 1 {
        return None;
    }
    let _response = book.apply(0, response);
    Some(book)
}

/// Renders the answer of a ticket, `count` times.
fn render<R: Clock>(rt: &R, alloc: Global, ticket: Ticket, size: u64, count: u64) -> Option<Made> {
    let book = book(alloc, size)?;
    let begun = now(rt);
    let mut rendered: u64 = 0;
    for _ in 0..count {
        if let Ok(Some(_)) = book.render(ticket) {
            rendered = rendered.saturating_add(1);
        }
    }
    Some(made_since(rt, begun, rendered))
}

/// Renders the delivery to the runtime that asked first. Returns `None` as `decide_invoke` does.
pub fn render_delivery<R: Clock>(rt: &R, alloc: Global, size: u64, count: u64) -> Option<Made> {
    render(rt, alloc, 0, size, count)
}

/// Renders the output to the caller. Returns `None` as `decide_invoke` does.
pub fn render_output<R: Clock>(rt: &R, alloc: Global, size: u64, count: u64) -> Option<Made> {
    render(rt, alloc, 1, size, count)
}

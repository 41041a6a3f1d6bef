//! How these checks decide requests, by the path alone, and their clock.

ghost use Rattle.std.specs.Prelude.{◌≡◌, true, IfOk, IfSome};
ghost use Rattle.call_types.specs.Within.{IsEnv, IsFunction, is_body};
ghost use Rattle.decisions.specs.Decisions.{IsAllowed};

use account_lock::{AtOnce, Identity};
use arn_ids::{GREATEST_MOMENT, LONGEST_BODY};
use bytes::Bytes;
use call_model::{Call, Ticket};
use case_tables::{CaseFault, value_of};
use decisions::{Decide, Decision, Received, Shown, TraceQuery};
use http::request::Parts;
use lambda_wire::{PayloadScratch, Reply, fault_reply, json_headers};
use long_poll::{Clock, ClockFace, Heard, OneShotBell, Service};
use std::alloc::{AllocError, Global};
use std::marker::PhantomData;
use std::sync::Wait;
use usage_ledger::{KeepNone, Tally, Token};

/// A clock that does not advance by itself, and forgets what it is asked for.
#[derive(Clone, Copy)]
pub struct At(pub u64);

impl At {
    /// Returns what it shows, if it is running or not.
    fn shown(&self, is_running: bool) -> ClockFace {
        ClockFace {
            now: self.0.min(GREATEST_MOMENT),
            is_running,
        }
    }
}

impl Clock for At {
    fn now(&self) -> u64 {
        self.0
    }

    fn lag(&self) -> u64 {
        0
    }

    fn face(&self) -> ClockFace {
        self.shown(true)
    }

    fn pause(&self) -> ClockFace {
        self.shown(false)
    }

    fn resume(&self) -> ClockFace {
        self.shown(true)
    }

    fn advance(&self, by: u64) -> Option<ClockFace> {
        let from = self.shown(true).now;
        if by > GREATEST_MOMENT - from {
            return None;
        }
        Some(ClockFace {
            now: from + by,
            is_running: true,
        })
    }
}

/// A call that was submitted with a bell: its ticket, the receiver of its bell, and its token.
#[derive(Drop)]
pub struct Parked<S: Identity> {
    pub ticket: Ticket,
    pub heard: Heard,
    pub token: Token<S>,
}

/// Decides for a configuration that has an environment and a function.
#[derive(Drop)]
pub struct Rows<S: Identity> {
    of: PhantomData<S>,
    ghost environment: { IsEnv S.config 1 },
    ghost function: { IsFunction S.config 1 },
}

/// Returns the body as a call's payload, or `None` if it is too long for one.
fn payload(body: &Bytes) -> Result<Option<Bytes>, AllocError>
    ensures { IfOk result (λ payload. IfSome payload (λ bytes. is_body bytes ≡ true)) }
{
    if body.as_slice().len() > LONGEST_BODY {
        return Ok(None);
    }
    Ok(Some(body.clone()?))
}

/// What a request asks for.
#[derive(Clone, Copy)]
enum Asked {
    Next,
    Invoke,
    Response,
    Withdraw,
    Stats,
    History(Option<Ticket>),
    Trace(Ticket, bool),
    Environments,
    Reservation,
    Echo,
    Length,
}

/// What each path asks for; any other path asks for the body's length.
const PATHS: [(&str, Asked); 15] = [
    ("/next", Asked::Next),
    ("/invoke", Asked::Invoke),
    ("/response", Asked::Response),
    ("/withdraw", Asked::Withdraw),
    ("/stats", Asked::Stats),
    ("/history", Asked::History(None)),
    ("/history/1", Asked::History(Some(1))),
    ("/history/9", Asked::History(Some(9))),
    ("/trace", Asked::Trace(0, false)),
    ("/trace/1", Asked::Trace(1, false)),
    ("/trace/9", Asked::Trace(9, false)),
    ("/trace/followed", Asked::Trace(0, true)),
    ("/environments", Asked::Environments),
    ("/reservation", Asked::Reservation),
    ("/echo", Asked::Echo),
];

/// Returns a reply with this body.
fn shown(alloc: Global, body: Bytes) -> Result<Reply, AllocError> {
    Ok(Reply {
        status: 200,
        headers: json_headers(alloc)?,
        body,
    })
}

/// Returns a reply with the same body.
fn echo_of(alloc: Global, body: &Bytes) -> Result<Reply, AllocError> {
    shown(alloc, body.clone()?)
}

/// Returns a reply with the length of a body.
fn length_of(alloc: Global, body: &Bytes) -> Result<Reply, AllocError> {
    shown(
        alloc,
        Bytes::from_string(format!(in alloc; "{}", body.len())?)?,
    )
}

impl<S: Identity> Rows<S> {
    /// Creates the decider for the configuration that the type names.
    pub fn new() -> Rows<S>
        requires environment { IsEnv S.config 1 }
        requires function { IsFunction S.config 1 }
    {
        Rows { of: PhantomData }
    }

    /// Submits a runtime's Next with a bell, at moment 500.
    pub fn park<X: Service<KeepNone, Ledgers = S>>(
        &self,
        rt: &impl Wait,
        alloc: Global,
        service: &X,
        mut seen: Token<S>,
        tally: &mut Tally<KeepNone, S>,
    ) -> Result<Parked<S>, CaseFault>
        requires { X.serves service.now ≡ S.config }
    {
        let _of = &self.of;
        let (bell, heard) = OneShotBell::pair(alloc)?;
        let call = Call::RuntimeNext { env: 1 };
        match service.submit(rt, tally, &mut seen, 500, call, Some(bell), &AtOnce) {
            Ok((ticket, token)) => Ok(Parked {
                ticket,
                heard,
                token,
            }),
            Err(_) => Err(CaseFault::Memory),
        }
    }

    /// Returns the decision to give a reply.
    fn replied(&self, reply: Result<Reply, AllocError>) -> Result<Decision, AllocError>
        ensures { IfOk result (IsAllowed S.config) }
    {
        let _of = &self.of;
        match reply {
            Ok(reply) => Ok(Decision::Reply(reply)),
            Err(fault) => Err(fault),
        }
    }

    /// Returns the decision to make a call with a body: a response to invocation 1, or an Invoke of
    /// function 1.
    fn call(&self, alloc: Global, body: &Bytes, is_response: bool) -> Result<Decision, AllocError>
        ensures { IfOk result (IsAllowed S.config) }
    {
        let _of = &self.of;
        let Some(body) = payload(body)? else {
            return self.replied(fault_reply(alloc, 413, "too large", "TooLarge"));
        };
        if is_response {
            let (env, id) = (1, 1);
            return Ok(Decision::Submit(Call::Response { env, id, body }));
        }
        Ok(Decision::Submit(Call::Invoke {
            function: 1,
            qualified: false,
            trace: None,
            body,
        }))
    }
}

impl<S: Identity> Decide for Rows<S> {
    ghost decides = { λ _ _ _ _. Unit {0} };

    ghost decides_for = { λ _. S.config };

    fn decide(
        &self,
        alloc: Global,
        _scratch: &mut PayloadScratch,
        parts: &Parts,
        body: &Received,
    ) -> Result<Decision, AllocError> {
        let _of = &self.of;
        let Some(body) = body.bytes() else {
            return self.replied(fault_reply(alloc, 413, "too large", "TooLarge"));
        };
        match value_of(&PATHS, parts.uri.path()).unwrap_or(Asked::Length) {
            Asked::Next => Ok(Decision::Submit(Call::RuntimeNext { env: 1 })),
            Asked::Invoke => self.call(alloc, body, false),
            Asked::Response => self.call(alloc, body, true),
            Asked::Withdraw => Ok(Decision::Submit(Call::Withdraw { ticket: 0 })),
            Asked::Stats => Ok(Decision::Show(Shown::Stats)),
            Asked::History(from) => Ok(Decision::Show(Shown::History { from })),
            Asked::Trace(from, follow) => Ok(Decision::Show(Shown::Trace(TraceQuery {
                from,
                follow,
                bodies: true,
            }))),
            Asked::Environments => Ok(Decision::Show(Shown::Environments)),
            Asked::Reservation => Ok(Decision::Show(Shown::Reservation { function: 1 })),
            Asked::Echo => self.replied(echo_of(alloc, body)),
            Asked::Length => self.replied(length_of(alloc, body)),
        }
    }
}

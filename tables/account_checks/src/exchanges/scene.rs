//! A service, and the requests made to it.

ghost use Rattle.std.specs.Prelude.{◌≡◌, ⊤, IfOk};
ghost use Rattle.std.specs.Arc.{arc_value};
ghost use Rattle.long_poll.specs.Stages.{CanGoOn};
ghost use Rattle.long_poll.specs.Standing.{Holds};

use crate::Runner;
use crate::exchanges::asks::{Pieces, ask_in, three_in};
use crate::exchanges::outcomes::{
    finished, made_at_once, push_collected, push_made, push_open, push_poll, push_three,
};
use crate::exchanges::rows::{At, Parked, Rows};
use crate::lines::number_behind;
use account_lock::Identity;
use call_model::Answer;
use case_tables::{Case, CaseFault, Given, Part, value_of};
use http_body_util::BodyExt;
use lambda_wire::Reply;
use long_poll::{
    BellLost, Connection, Exchange, Heard, OneShotBell, OpenPoll, Poll, Service, Shared,
    StreamedBody, declares_too_long,
};
use std::alloc::{AllocError, AllocGlobal, Global};
use std::random::RandomSource;
use std::sync::{Arc, Mutex, Wait};
use std::thread;
use std::time::Clock;
use usage_ledger::{Anchor, KeepNone, Tally, Token};

/// How often to withdraw a call that another thread waits for: an allocation may fail.
const TRIES: u32 = 2;

/// What the connections of a case share: a service, a beginning of its history, its decider, and a tally.
#[derive(Drop)]
pub struct Served<X: Service<KeepNone, Ledgers = S>, S: Identity> {
    service: Arc<X>,
    anchor: Arc<Anchor<S>>,
    rows: Arc<Rows<S>>,
    tally: Arc<Mutex<Tally<KeepNone, S>>>,
    ghost agree: { X.serves (arc_value service) ≡ S.config },
}

/// A service under test, and how long a connection holds back a premature call, in milliseconds.
#[derive(Drop)]
pub struct Scene<R, X: Service<KeepNone, Ledgers = S>, S: Identity> {
    rt: R,
    alloc: Global,
    served: Served<X, S>,
    patience: u32,
}

/// The outcome of a poll.
type Polled = Result<Answer, BellLost>;

/// Shares a value.
fn arc_of<T: Drop>(alloc: Global, value: T) -> Result<Arc<T>, AllocError>
    ensures { IfOk result (λ it. arc_value it ≡ value) }
{
    match Arc::new(alloc, value) {
        Ok(shared) => Ok(shared),
        Err(_) => Err(AllocError),
    }
}

/// Returns the receiver of a bell that was dropped.
fn heard_lost(alloc: Global) -> Result<Heard, AllocError> {
    let (bell, heard) = OneShotBell::pair(alloc)?;
    drop(bell);
    Ok(heard)
}

impl<X: Service<KeepNone, Ledgers = S>, S: Identity> Served<X, S> {
    /// Collects what the connections to this service share.
    pub fn new(
        alloc: Global,
        service: X,
        anchor: Anchor<S>,
        rows: Arc<Rows<S>>,
        tally: Tally<KeepNone, S>,
    ) -> Result<Served<X, S>, AllocError>
        requires { X.serves service ≡ S.config }
    {
        let service = arc_of(alloc, service)?;
        let anchor = arc_of(alloc, anchor)?;
        let tally = arc_of(alloc, Mutex::new(tally))?;
        Ok(Served {
            service,
            anchor,
            rows,
            tally,
        })
    }

    /// Shares it with one more connection.
    fn again(&self) -> Result<Served<X, S>, AllocError> {
        let service = Arc::try_clone(&self.service)?;
        let anchor = Arc::try_clone(&self.anchor)?;
        let rows = Arc::try_clone(&self.rows)?;
        let tally = Arc::try_clone(&self.tally)?;
        Ok(Served {
            service,
            anchor,
            rows,
            tally,
        })
    }
}

impl<
    R: Wait + Clock + RandomSource + AllocGlobal + Copy + Drop,
    X: Service<KeepNone, Ledgers = S>,
    S: Identity + Drop,
> Scene<R, X, S> {
    /// Creates a scene around this service.
    pub fn new(rt: R, alloc: Global, served: Served<X, S>, patience: u32) -> Scene<R, X, S> {
        Scene {
            rt,
            alloc,
            served,
            patience,
        }
    }

    /// Returns the service.
    pub fn service(&self) -> &X {
        &self.served.service
    }

    /// Opens a connection with this clock and this note of its open Next.
    fn connected(
        &self,
        clock: At,
        open: Arc<OpenPoll>,
    ) -> Result<Arc<Connection<R, X, Rows<S>, At, KeepNone>>, AllocError> {
        let own = self.served.again()?;
        let token = own.service.from_anchor(&self.rt, &own.anchor);
        let shared = Shared::new(self.alloc, own.service, clock, self.patience)?;
        let shared = arc_of(self.alloc, shared)?;
        let connection = Connection::new(self.rt, shared, own.rows, own.tally, token, open)?;
        arc_of(self.alloc, connection)
    }

    /// Opens a connection whose clock reads this moment, and returns the note of its open Next.
    fn connection(
        &self,
        at: At,
        open: &Arc<OpenPoll>,
    ) -> Result<Arc<Connection<R, X, Rows<S>, At, KeepNone>>, AllocError> {
        let open = Arc::try_clone(open)?;
        self.connected(at, open)
    }

    /// Makes the exchange of a line, over a new connection.
    fn exchange(
        &self,
        line: u64,
        text: &str,
        open: &Arc<OpenPoll>,
    ) -> Result<Exchange<R, X, Rows<S>, At, Pieces, KeepNone>, CaseFault>
        ensures { IfOk result (λ exchange. CanGoOn (Holds exchange) (λ _. ⊤) exchange.stage) }
    {
        let ask = ask_in(self.alloc, line, text)?;
        let is_too_long = declares_too_long(&ask.parts);
        match self.connection(ask.at, open) {
            Ok(connection) => Ok(Exchange::new(connection, ask.parts, ask.body, is_too_long)),
            Err(_) => Err(CaseFault::Memory),
        }
    }

    /// Adds the history, or its trace.
    fn push_streamed(
        &self,
        given: &mut Given,
        body: StreamedBody<R, X, X::Trail, KeepNone, S>,
    ) {
        push_collected(given, finished(&self.rt, body.collect(self.alloc)));
    }

    /// Makes the request of a line, or drops it as soon as it waits, and adds its outcome.
    fn make(
        &self,
        line: u64,
        text: &str,
        drops: bool,
        open: &Arc<OpenPoll>,
        given: &mut Given,
    ) -> Result<(), CaseFault> {
        let exchange = self.exchange(line, text, open)?;
        if let Some(body) = push_made(&self.rt, exchange, drops, given) {
            self.push_streamed(given, body);
        }
        Ok(())
    }

    /// Adds the line of a request, its outcome, and the Next that its connection then has open.
    fn ask(&self, line: u64, text: &str, drops: bool, given: &mut Given) -> Result<(), CaseFault> {
        given.line(text);
        let open = arc_of(self.alloc, OpenPoll::new())?;
        self.make(line, text, drops, &open, given)?;
        push_open(given, &open);
        given.end()
    }

    /// Makes the requests in a part's lines, one after another.
    fn ask_all(&self, part: &Part, given: &mut Given) -> Result<(), CaseFault> {
        for text in part.lines().split('\n') {
            self.ask(part.line(), text, part.word() == "drops", given)?;
        }
        Ok(())
    }

    /// Makes the requests in three lines at the same time, each over its own connection.
    fn make_three(
        &self,
        line: u64,
        texts: (&str, &str, &str),
        open: &Arc<OpenPoll>,
    ) -> Result<(Reply, Reply, Reply), CaseFault> {
        let first = self.exchange(line, texts.0, open);
        let second = self.exchange(line, texts.1, open);
        let third = self.exchange(line, texts.2, open);
        made_at_once(&self.rt, line, first, second, third)
    }

    /// Makes the requests in a part's three lines at the same time.
    fn ask_three(&self, part: &Part, given: &mut Given) -> Result<(), CaseFault> {
        let texts = three_in(part);
        let open = arc_of(self.alloc, OpenPoll::new())?;
        let came = self.make_three(part.line(), texts, &open);
        push_three(given, texts, came, &open)
    }

    /// Polls for the answer of a ticket, and returns the outcome.
    fn poll(&self, parked: Parked<S>) -> Result<Polled, CaseFault> {
        let service = Arc::try_clone(&self.served.service)?;
        let poll: Poll<R, X, Heard, KeepNone, S> = Poll::new(
            self.rt,
            service,
            parked.ticket,
            parked.heard,
            parked.token,
        );
        finished(&self.rt, poll)
    }

    /// Polls for the answer of a ticket, whose bell was dropped.
    fn poll_lost(&self, part: &Part, given: &mut Given) -> Result<(), CaseFault> {
        let ticket = number_behind(part)?;
        let heard = heard_lost(self.alloc)?;
        let token = self.token();
        let came = self.poll(Parked {
            ticket,
            heard,
            token,
        })?;
        push_poll(given, ticket, came);
        Ok(())
    }

    /// Returns a token of the history's beginning.
    fn token(&self) -> Token<S> {
        self.served
            .service
            .from_anchor(&self.rt, &self.served.anchor)
    }

    /// Submits a runtime's Next with a bell.
    fn park(&self) -> Result<Parked<S>, CaseFault> {
        let seen = self.token();
        let mut tally = self.served.tally.lock(&self.rt);
        self.served
            .rows
            .park(&self.rt, self.alloc, &*self.served.service, seen, &mut tally)
    }

    /// Begins the request of a part while another thread polls for ticket 0: a ticket that is not
    /// answered by then is withdrawn, so that the other thread does not wait forever.
    fn ask_for_other(&self, part: &Part, given: &mut Given) -> Result<(), CaseFault> {
        let asked = self.ask(part.line(), part.lines(), true, given);
        for _ in 0..TRIES {
            let mut unread = Given::new(self.alloc);
            let _ = self.ask(part.line(), "0 /withdraw", true, &mut unread);
        }
        asked
    }
}

/// Polls on another thread for the answer of a runtime's Next, while this thread begins the request
/// of a part.
fn poll_across<R: Runner, X: Service<KeepNone, Ledgers = S> + Send + Sync, S: Identity + Drop + Send + Sync>(
    scene: &Scene<R, X, S>,
    part: &Part,
    given: &mut Given,
) -> Result<(), CaseFault> {
    let parked = scene.park()?;
    let ticket = parked.ticket;
    let (came, asked) = thread::join(
        &scene.rt,
        move || scene.poll(parked),
        || scene.ask_for_other(part, given),
    );
    asked?;
    push_poll(given, ticket, came?);
    Ok(())
}

/// What a part does.
#[derive(Clone, Copy)]
enum Deed {
    /// It says what the case runs over.
    Opens,
    Asks,
    AsksAtOnce,
    PollsLost,
    PollsAcross,
}

/// The deeds, by the words of their parts.
const DEEDS: [(&str, Deed); 8] = [
    ("open", Deed::Opens),
    ("board", Deed::Opens),
    ("patience", Deed::Opens),
    ("asks", Deed::Asks),
    ("drops", Deed::Asks),
    ("at-once", Deed::AsksAtOnce),
    ("lost", Deed::PollsLost),
    ("across", Deed::PollsAcross),
];

/// Performs a part of a case.
fn act<R: Runner, X: Service<KeepNone, Ledgers = S> + Send + Sync, S: Identity + Drop + Send + Sync>(
    scene: &Scene<R, X, S>,
    part: &Part,
    given: &mut Given,
) -> Result<(), CaseFault> {
    match value_of(&DEEDS, part.word()) {
        Some(Deed::Opens) => Ok(()),
        Some(Deed::Asks) => scene.ask_all(part, given),
        Some(Deed::AsksAtOnce) => scene.ask_three(part, given),
        Some(Deed::PollsLost) => scene.poll_lost(part, given),
        Some(Deed::PollsAcross) => poll_across(scene, part, given),
        None => Err(CaseFault::Unknown { line: part.line() }),
    }
}

/// Performs the parts of a case, in their order.
pub fn play<R: Runner, X: Service<KeepNone, Ledgers = S> + Send + Sync, S: Identity + Drop + Send + Sync>(
    scene: &Scene<R, X, S>,
    case: &Case,
    given: &mut Given,
) -> Result<(), CaseFault> {
    for part in case.parts() {
        act(scene, part, given)?;
    }
    Ok(())
}

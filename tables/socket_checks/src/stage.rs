//! What a check works with, and how its service begins and ends.

use crate::server::{Left, Order, Server, Terms};
use call_model::Stats;
use case_tables::{Case, CaseFault, Given, Part};
use http_connection::Machine;
use http_front::HostFault;
use socket_peers::{Peers, Ports, Progress, TURN_MS, exchange, number, push_line, request_of};
use std::alloc::Global;
use std::fmt::Debug;
use std::marker::PhantomData;
use std::net::{TcpListener, TcpStream};
use std::sync::atomic::Ordering::SeqCst;
use std::thread;
use std::time::Duration;

/// How many turns to wait for a service to begin or to end: a minute, as the machine may be busy.
const TURNS: u32 = 6_000;

/// How often to look for free ports, if other programs take them first.
const TRIES: u32 = 5;

/// What a check works with: a service, its ports and its clock, and the named peers.
#[derive(Drop)]
pub struct Stage<R> {
    pub rt: R,
    pub alloc: Global,
    pub ports: Ports,
    pub peers: Peers,
    /// The reading of the monotonic clock when the check began.
    pub begun: Duration,
    terms: Terms,
    moment: u64,
    server: Option<Server>,
    is_stopping: bool,
    // (So that the types of the machine's sockets are among those of each method.)
    of: PhantomData<(TcpListener, TcpStream)>,
}

/// Adds that a service ended with a fault.
fn push_fault<F: Debug>(given: &mut Given, fault: &F) {
    given.push("ended: ");
    given.show(fault);
    given.push("\n");
}

/// Adds a number of something, followed by its name.
fn push_count(given: &mut Given, count: u64, what: &str) {
    given.print(&count);
    given.push(what);
}

/// Adds what a service left, if its account settled with these counts.
fn push_settled(given: &mut Given, left: Left, stats: Stats) {
    given.push("ended: ");
    push_count(given, left.entries, " entries, ");
    push_count(given, left.calls, " calls, ");
    push_count(given, left.receipts, " receipts; ");
    push_count(given, stats.admitted, " admitted, ");
    push_count(given, stats.throttled, " throttled, ");
    push_count(given, stats.failed, " failed\n");
}

/// Adds how a service ended, as a line.
fn push_ending(given: &mut Given, left: Result<Left, HostFault>) {
    match left {
        Ok(left) => match left.settled {
            Ok(stats) => push_settled(given, left, stats),
            Err(fault) => push_fault(given, &fault),
        },
        Err(fault) => push_fault(given, &fault),
    }
}

impl<R: Machine> Stage<R> {
    /// Creates a stage without a service.
    pub fn new(rt: R, alloc: Global, case: &Case) -> Result<Stage<R>, CaseFault> {
        let Ok(ports) = Ports::probe(&rt, alloc) else {
            return Err(CaseFault::Malformed {
                line: case.line(),
                what: "no port is free",
            });
        };
        Ok(Stage {
            rt,
            alloc,
            ports,
            peers: Peers::new(alloc),
            begun: rt.monotonic().unwrap_or(Duration::ZERO),
            terms: Terms::new(),
            moment: 0,
            server: None,
            is_stopping: false,
            of: PhantomData,
        })
    }

    /// Waits for one turn.
    pub fn pause(&self) {
        thread::sleep(&self.rt, Duration::from_millis(TURN_MS));
    }

    /// Checks that the service has not been started yet.
    fn expect_no_service(&self, part: &Part) -> Result<(), CaseFault> {
        match self.server {
            Some(_) => Err(part.malformed("the service has begun")),
            None => Ok(()),
        }
    }

    /// Sets how the next service is opened.
    pub fn set_terms(&mut self, part: &Part) -> Result<Progress, CaseFault> {
        self.expect_no_service(part)?;
        self.terms.set(part)
    }

    /// Sets the service's clock.
    pub fn set_moment(&mut self, part: &Part) -> Result<Progress, CaseFault> {
        self.moment = u64::from(number(part, part.arguments())?);
        if let Some(server) = &self.server {
            server.board.moment.store(self.moment, SeqCst);
            server.board.wake(&self.rt);
        }
        Ok(Progress::On)
    }

    /// Sets the time of day of the service's machine.
    pub fn set_day(&mut self, part: &Part) -> Result<Progress, CaseFault> {
        let day = u64::from(number(part, part.arguments())?);
        if let Some(server) = &self.server {
            server.board.day.store(day, SeqCst);
            server.board.wake(&self.rt);
        }
        Ok(Progress::On)
    }

    /// Starts a service on the ports of this stage, and waits until it listens or has ended.
    fn start(&mut self, text: &str, taken: Option<&str>) -> Result<Server, CaseFault> {
        let order = Order {
            config: self.ports.filled(self.alloc, text)?,
            terms: self.terms,
        };
        self.ports.release(taken);
        let server = Server::start(self.rt, order, self.moment)?;
        self.wait_for(&server);
        Ok(server)
    }

    /// Waits until a service listens or has ended.
    fn wait_for(&self, server: &Server) {
        for _ in 0..TURNS {
            if server.listens() || server.has_ended() {
                break;
            }
            self.pause();
        }
    }

    /// Returns the port that another program has taken: the name after `taken`.
    fn taken<'a>(&self, part: &'a Part) -> Result<Option<&'a str>, CaseFault> {
        match part.arguments().split_once(' ') {
            None if part.arguments().is_empty() => Ok(None),
            Some(("taken", name)) if self.ports.number(name).is_some() => Ok(Some(name)),
            _ => Err(part.malformed("taken and a port are wanted")),
        }
    }

    /// Starts a service, and returns whether that is final: it serves, or its end was added.
    /// Otherwise another program had taken a port first.
    fn serve_once(
        &mut self,
        part: &Part,
        taken: Option<&str>,
        given: &mut Given,
    ) -> Result<bool, CaseFault> {
        let server = self.start(part.text(), taken)?;
        if !server.has_ended() {
            self.server = Some(server);
            return Ok(true);
        }
        let left = server.join(&self.rt);
        if taken.is_none() && matches!(left, Err(HostFault::Network)) {
            return Ok(false);
        }
        push_ending(given, left);
        Ok(true)
    }

    /// Serves the configuration in a part. If the service doesn't open, adds how it ended.
    pub fn serve(&mut self, part: &Part, given: &mut Given) -> Result<Progress, CaseFault> {
        self.expect_no_service(part)?;
        let taken = self.taken(part)?;
        for _ in 0..TRIES {
            if self.serve_once(part, taken, given)? {
                return Ok(Progress::On);
            }
            self.look_for_ports(part)?;
        }
        Err(part.malformed("no port is free"))
    }

    /// Looks for other ports.
    fn look_for_ports(&mut self, part: &Part) -> Result<(), CaseFault> {
        match Ports::probe(&self.rt, self.alloc) {
            Ok(ports) => {
                self.ports = ports;
                Ok(())
            }
            Err(_) => Err(part.malformed("no port is free")),
        }
    }

    /// Asks the service to stop, and returns whether it does; `None` if it does not answer.
    fn is_stopped(&self) -> Result<Option<bool>, CaseFault> {
        let Some(port) = self.ports.number("invoke") else {
            return Ok(None);
        };
        let request = request_of(self.alloc, "POST", "/_local/stop", "")?;
        match exchange(&self.rt, port, request.as_str(), TURNS) {
            Ok(heard) if !heard.has_ended => Ok(None),
            Ok(heard) => Ok(Some(heard.bytes.as_slice().starts_with(b"HTTP/1.1 202 "))),
            Err(_) => Ok(Some(false)),
        }
    }

    /// Asks the service to stop until it does: it may first have to notice that others have gone.
    pub fn stop(&mut self) -> Result<Progress, CaseFault> {
        self.is_stopping = true;
        for _ in 0..TURNS {
            match self.is_stopped()? {
                Some(true) => return Ok(Progress::On),
                Some(false) => self.pause(),
                None => break,
            }
        }
        Ok(Progress::Stuck)
    }

    /// Waits for the end of a service, and adds how it ended.
    fn see_out(&self, server: Server, given: &mut Given) -> Result<Progress, CaseFault> {
        for _ in 0..TURNS {
            if server.has_ended() {
                push_ending(given, server.join(&self.rt));
                return Ok(Progress::On);
            }
            self.pause();
        }
        push_line(given, "ended", "not yet");
        Ok(Progress::Stuck)
    }

    /// Ends the service, if there is one, and adds how it ended.
    pub fn end(&mut self, given: &mut Given) -> Result<Progress, CaseFault> {
        let Some(server) = self.server.take() else {
            return Ok(Progress::On);
        };
        if !self.is_stopping && self.stop()? == Progress::Stuck {
            push_line(given, "stop", "no answer");
        }
        self.see_out(server, given)
    }
}

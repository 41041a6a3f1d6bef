//! The peers of a check, by their names, and the steps of peers.

use crate::answers::{View, push_heard};
use crate::peer::{Heard, Peer};
use crate::ports::Ports;
use crate::steps::{Progress, bytes_of, number, push_line, split_word};
use case_tables::{CaseFault, Given, Part};
use std::alloc::Global;

/// How many turns to wait for something: a minute, as the machine may be busy. A step can change this for the steps
/// after it.
const TURNS: u32 = 6_000;

/// The number of turns in a second.
const TURNS_A_SECOND: u32 = 100;

/// How many turns a peer listens to check that nothing comes.
const MOMENT: u32 = 5;

/// A connection with its name.
#[derive(Drop)]
struct Named {
    name: String,
    peer: Peer,
}

impl Named {
    /// Sends these bytes a number of times.
    fn send_times(&mut self, given: &mut Given, bytes: &[u8], times: u32) {
        for _ in 0..times {
            if self.peer.send(bytes).is_err() {
                push_line(given, self.name.as_str(), "not sent");
                break;
            }
        }
    }
}

/// Adds what a peer has received.
pub fn push_came(
    given: &mut Given,
    ports: &Ports,
    view: &View<'_>,
    heard: &Heard,
) -> Result<Progress, CaseFault> {
    let mut lines = Given::new(given.alloc());
    push_heard(&mut lines, view, heard);
    lines.end()?;
    given.push(ports.named(given.alloc(), lines.as_str())?.as_str());
    match heard.has_ended {
        true => Ok(Progress::On),
        false => Ok(Progress::Stuck),
    }
}

/// Returns what to say about a peer that should receive nothing.
fn silence_of(heard: &Heard) -> &'static str {
    match heard.bytes.is_empty() && !heard.has_ended {
        true => "nothing yet",
        false => "something came, or the end",
    }
}

/// The connected peers.
#[derive(Drop)]
pub struct Peers {
    alloc: Global,
    named: Vec<Named>,
    /// How many turns of ten milliseconds to wait for something.
    pub turns: u32,
}

impl Peers {
    /// Creates peers, none of which is connected.
    pub fn new(alloc: Global) -> Peers {
        Peers {
            alloc,
            named: Vec::new(alloc),
            turns: TURNS,
        }
    }

    /// Returns the index of the peer with this name.
    fn place(&self, part: &Part, name: &str) -> Result<usize, CaseFault> {
        for (place, named) in self.named.iter().enumerate() {
            if named.name.as_str() == name {
                return Ok(place);
            }
        }
        Err(part.malformed("no peer of this name is connected"))
    }

    /// Returns the peer with this name.
    fn named(&mut self, part: &Part, name: &str) -> Result<&mut Named, CaseFault> {
        let place = self.place(part, name)?;
        match self.named.get_mut(place) {
            Some(named) => Ok(named),
            None => Err(part.malformed("no peer of this name is connected")),
        }
    }

    /// Checks that no connected peer has this name.
    pub fn expect_newcomer(&self, part: &Part, name: &str) -> Result<(), CaseFault> {
        match self.place(part, name) {
            Ok(_) => Err(part.malformed("a peer of this name is connected")),
            Err(_) => Ok(()),
        }
    }

    /// Adds a peer that has connected, under this name, and sends these bytes from it.
    pub fn welcome(
        &mut self,
        given: &mut Given,
        name: &str,
        peer: Peer,
        bytes: &[u8],
    ) -> Result<Progress, CaseFault> {
        let name = String::from_str(self.alloc, name)?;
        let mut named = Named { name, peer };
        named.send_times(given, bytes, 1);
        self.named.push(named)?;
        Ok(Progress::On)
    }

    /// Sets how long later steps wait, in seconds.
    fn wait_longer(&mut self, part: &Part) -> Result<Progress, CaseFault> {
        let seconds = number(part, part.arguments())?;
        self.turns = seconds.saturating_mul(TURNS_A_SECOND);
        Ok(Progress::On)
    }

    /// Performs a step of a connected peer, or sets how long steps wait.
    pub fn perform(
        &mut self,
        part: &Part,
        ports: &Ports,
        given: &mut Given,
    ) -> Result<Progress, CaseFault> {
        match part.word() {
            "waits" => self.wait_longer(part),
            "sends" => self.send(part, given),
            "repeats" => self.repeat(part, given),
            "fills" => self.fill(part, given),
            "ends-side" => self.end_side(part, given),
            "closes" => self.close(part),
            "hears" => self.hear(part, ports, given),
            "awaits" => self.wait_for_bytes(part, given),
            "stays" => self.stay(part, given),
            _ => Err(CaseFault::Unknown { line: part.line() }),
        }
    }

    /// Sends the lines of the part from a peer.
    fn send(&mut self, part: &Part, given: &mut Given) -> Result<Progress, CaseFault> {
        let named = self.named(part, part.arguments())?;
        let bytes = bytes_of(given.alloc(), part)?;
        named.send_times(given, bytes.as_slice(), 1);
        Ok(Progress::On)
    }

    /// Sends the lines of the part from a peer, a number of times.
    fn repeat(&mut self, part: &Part, given: &mut Given) -> Result<Progress, CaseFault> {
        let (name, times) = split_word(part.arguments());
        let named = self.named(part, name)?;
        let times = number(part, times)?;
        let bytes = bytes_of(given.alloc(), part)?;
        named.send_times(given, bytes.as_slice(), times);
        Ok(Progress::On)
    }

    /// Sends a number of letters from a peer.
    fn fill(&mut self, part: &Part, given: &mut Given) -> Result<Progress, CaseFault> {
        let (name, count) = split_word(part.arguments());
        let named = self.named(part, name)?;
        let count = number(part, count)?;
        if named.peer.fill(count as usize).is_err() {
            push_line(given, name, "not filled");
        }
        Ok(Progress::On)
    }

    /// Ends a peer's own side.
    fn end_side(&mut self, part: &Part, given: &mut Given) -> Result<Progress, CaseFault> {
        let name = part.arguments();
        if self.named(part, name)?.peer.end_side().is_err() {
            push_line(given, name, "no end of its side");
        }
        Ok(Progress::On)
    }

    /// Closes a peer's connection.
    fn close(&mut self, part: &Part) -> Result<Progress, CaseFault> {
        let place = self.place(part, part.arguments())?;
        if place < self.named.len() {
            let _closed = self.named.swap_remove(place);
        }
        Ok(Progress::On)
    }

    /// Adds everything that comes to a peer.
    fn hear(
        &mut self,
        part: &Part,
        ports: &Ports,
        given: &mut Given,
    ) -> Result<Progress, CaseFault> {
        let (name, fields) = split_word(part.arguments());
        let turns = self.turns;
        let named = self.named(part, name)?;
        match named.peer.hear(given.alloc(), turns) {
            Ok(heard) => push_came(given, ports, &View { name, fields }, &heard),
            Err(_) => {
                push_line(given, name, "not heard");
                Ok(Progress::Stuck)
            }
        }
    }

    /// Waits until bytes have come to a peer.
    fn wait_for_bytes(&mut self, part: &Part, given: &mut Given) -> Result<Progress, CaseFault> {
        let name = part.arguments();
        let turns = self.turns;
        if self.named(part, name)?.peer.await_bytes(turns) {
            return Ok(Progress::On);
        }
        push_line(given, name, "nothing came");
        Ok(Progress::Stuck)
    }

    /// Checks that nothing comes to a peer for a moment.
    fn stay(&mut self, part: &Part, given: &mut Given) -> Result<Progress, CaseFault> {
        let name = part.arguments();
        let named = self.named(part, name)?;
        let what = match named.peer.hear(given.alloc(), MOMENT) {
            Ok(heard) => silence_of(&heard),
            Err(_) => "not heard",
        };
        push_line(given, name, what);
        Ok(Progress::On)
    }
}

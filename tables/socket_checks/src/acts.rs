//! The steps of a check.

use crate::flood::is_answered_meanwhile;
use crate::stage::Stage;
use case_tables::{Case, CaseFault, Given, Part};
use http_connection::Machine;
use socket_peers::{
    Heard, Peer, Progress, View, bytes_of, entries_in, exchange, number, push_came, push_line,
    request_of, split_word,
};
use std::time::Duration;
use std::{io, str, thread};

/// How often a crowd is tried: an answer may also be late because the machine was busy.
const CROWDS: u32 = 5;

/// How often a peer asks that is turned away, since a busy machine may take longer to make room than the 250 ms for
/// which the service waits, and the time in between, in milliseconds: in all less than a second, in which no connection
/// that lingers ends by itself.
const ASKED: u32 = 3;

const AGAIN_MS: u64 = 50;

/// Returns the number of entries in a service's counts; `None` if it said anything else.
fn entries_of(heard: &Heard) -> Option<u64> {
    entries_in(str::from_utf8(heard.bytes.as_slice()).ok()?)
}

/// Whether a step takes lines.
fn takes_lines(word: &str) -> bool {
    matches!(
        word,
        "serves" | "opens" | "asks" | "gets" | "sends" | "repeats"
    )
}

/// Whether a connection was closed before anything came.
fn is_turned_away(heard: &Heard) -> bool {
    heard.has_ended && heard.bytes.is_empty()
}

/// Adds the last number of entries that was seen, if it is not the one wanted.
fn tell_entries(given: &mut Given, seen: Option<u64>, wanted: u64) -> Progress {
    if seen == Some(wanted) {
        return Progress::On;
    }
    given.push("entries: ");
    given.show(&seen);
    given.push("\n");
    Progress::Stuck
}

/// Adds how many seconds a check has taken, if they are out of a range.
fn tell_seconds(part: &Part, given: &mut Given, taken: u64) -> Result<Progress, CaseFault> {
    let (least, most) = split_word(part.arguments());
    let least = u64::from(number(part, least)?);
    let most = u64::from(number(part, most)?);
    if taken < least || taken > most {
        given.push("it took ");
        given.print(&taken);
        given.push(" seconds\n");
    }
    Ok(Progress::On)
}

impl<R: Machine> Stage<R> {
    /// Performs the steps of a case, until one waits in vain.
    pub fn play(&mut self, case: &Case, given: &mut Given) -> Result<Progress, CaseFault> {
        for part in case.parts() {
            if self.perform(part, given)? == Progress::Stuck {
                return Ok(Progress::Stuck);
            }
        }
        Ok(Progress::On)
    }

    /// Performs a step. (docs/checks.md, "Adding a case", has a table of the steps.)
    fn perform(&mut self, part: &Part, given: &mut Given) -> Result<Progress, CaseFault> {
        if !part.text().is_empty() && !takes_lines(part.word()) {
            return Err(part.malformed("no lines are wanted here"));
        }
        match part.word() {
            // (How often the case is played: `Checks`.)
            "tries" => Ok(Progress::On),
            "places" | "patience" | "holds-back" => self.set_terms(part),
            "moment" => self.set_moment(part),
            "day" => self.set_day(part),
            "serves" => self.serve(part, given),
            "opens" => self.open(part, given),
            "asks" => self.ask(part, given),
            "gets" => self.get(part, given),
            "entries" => self.wait_for_entries(part, given),
            "crowds" => self.crowd(part, given),
            "stops" => self.stop_by_step(part, given),
            "takes" => self.compare_seconds(part, given),
            _ => self.peers.perform(part, &self.ports, given),
        }
    }

    /// Returns the number of the port that a part's word names.
    pub fn port(&self, part: &Part, name: &str) -> Result<u16, CaseFault> {
        match self.ports.number(name) {
            Some(port) => Ok(port),
            None => Err(part.malformed("a port is invoke or 1 to 4")),
        }
    }

    /// Connects a peer with this name to a port, and sends these bytes.
    fn connect(
        &mut self,
        given: &mut Given,
        name: &str,
        port: u16,
        bytes: &[u8],
    ) -> Result<Progress, CaseFault> {
        match Peer::connect(&self.rt, port) {
            Ok(peer) => self.peers.welcome(given, name, peer, bytes),
            Err(_) => {
                push_line(given, name, "not connected");
                Ok(Progress::Stuck)
            }
        }
    }

    /// Connects a peer, which sends the lines of the part.
    fn open(&mut self, part: &Part, given: &mut Given) -> Result<Progress, CaseFault> {
        let (name, port) = split_word(part.arguments());
        self.peers.expect_newcomer(part, name)?;
        let port = self.port(part, port)?;
        let bytes = bytes_of(self.alloc, part)?;
        self.connect(given, name, port, bytes.as_slice())
    }

    /// Connects a peer, which sends a request.
    fn ask(&mut self, part: &Part, given: &mut Given) -> Result<Progress, CaseFault> {
        let (name, words) = split_word(part.arguments());
        let (port, words) = split_word(words);
        let (method, path) = split_word(words);
        self.peers.expect_newcomer(part, name)?;
        let port = self.port(part, port)?;
        let request = request_of(self.alloc, method, path, part.text())?;
        self.connect(given, name, port, request.as_str().as_bytes())
    }

    /// Returns what a request gets over its own connection, the last of `ASKED` if each is turned away.
    fn got(&self, port: u16, request: &str) -> io::Result<Heard> {
        for _ in 1..ASKED {
            if let Ok(heard) = exchange(&self.rt, port, request, self.peers.turns)
                && !is_turned_away(&heard)
            {
                return Ok(heard);
            }
            thread::sleep(&self.rt, Duration::from_millis(AGAIN_MS));
        }
        exchange(&self.rt, port, request, self.peers.turns)
    }

    /// Adds what a request gets, whose peer asks again if it is turned away.
    fn get(&mut self, part: &Part, given: &mut Given) -> Result<Progress, CaseFault> {
        let (name, words) = split_word(part.arguments());
        let (port, words) = split_word(words);
        let (method, path) = split_word(words);
        let port = self.port(part, port)?;
        let request = request_of(self.alloc, method, path, part.text())?;
        let Ok(heard) = self.got(port, request.as_str()) else {
            push_line(given, name, "not connected");
            return Ok(Progress::Stuck);
        };
        push_came(given, &self.ports, &View { name, fields: "" }, &heard)
    }

    /// Waits until the history has `wanted` entries, and returns the last number that was seen.
    fn entries(&self, port: u16, request: &str, wanted: u64) -> Option<u64> {
        let mut seen = None;
        for _ in 0..self.peers.turns {
            match exchange(&self.rt, port, request, self.peers.turns) {
                Ok(heard) if !heard.has_ended => return None,
                Ok(heard) => seen = entries_of(&heard),
                Err(_) => {}
            }
            if seen.is_some_and(|entries| entries >= wanted) {
                break;
            }
            self.pause();
        }
        seen
    }

    /// Waits until the history has exactly a number of entries.
    fn wait_for_entries(&self, part: &Part, given: &mut Given) -> Result<Progress, CaseFault> {
        let wanted = u64::from(number(part, part.arguments())?);
        let port = self.port(part, "invoke")?;
        let request = request_of(self.alloc, "GET", "/_local/stats", "")?;
        let seen = self.entries(port, request.as_str(), wanted);
        Ok(tell_entries(given, seen, wanted))
    }

    /// Whether a request to one port is answered while two peers crowd another.
    fn is_answered_in_a_crowd(&self, crowded: u16, port: u16, request: &str) -> bool {
        for _ in 0..CROWDS {
            if is_answered_meanwhile(&self.rt, crowded, port, request, self.peers.turns) {
                return true;
            }
        }
        false
    }

    /// Crowds a port with two peers, and asks for the service's counts meanwhile.
    fn crowd(&self, part: &Part, given: &mut Given) -> Result<Progress, CaseFault> {
        let crowded = self.port(part, part.arguments())?;
        let port = self.port(part, "invoke")?;
        let request = request_of(self.alloc, "GET", "/_local/stats", "")?;
        let what = match self.is_answered_in_a_crowd(crowded, port, request.as_str()) {
            true => "the counts came meanwhile",
            false => "the counts didn't come before its end",
        };
        push_line(given, "crowd", what);
        Ok(Progress::On)
    }

    /// Stops the service, and adds whether it was stopped.
    fn stop_by_step(&mut self, part: &Part, given: &mut Given) -> Result<Progress, CaseFault> {
        if !part.arguments().is_empty() {
            return Err(part.malformed("no word is wanted here"));
        }
        let progress = self.stop()?;
        let what = match progress {
            Progress::On => "202",
            Progress::Stuck => "no answer",
        };
        push_line(given, "stop", what);
        Ok(progress)
    }

    /// Adds how many seconds the check has taken, if they are out of a range.
    fn compare_seconds(&self, part: &Part, given: &mut Given) -> Result<Progress, CaseFault> {
        let now = self.rt.monotonic().unwrap_or(Duration::ZERO);
        tell_seconds(part, given, now.saturating_sub(self.begun).as_secs())
    }
}

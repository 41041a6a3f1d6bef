//! The lines of a case: each consists of words, and names one call to make.

use crate::parts::configurations::configuration_of;
use arn_ids::{Checked, Text};
use case_tables::{Case, CaseFault, Given, Part};
use std::alloc::{AllocError, AllocFailed, Global};

/// Why a line was not accepted.
#[derive(Clone, Copy)]
pub enum LineFault {
    /// An allocation failed.
    Memory,
    /// It names no call that is known here, or one that cannot be made.
    Malformed,
}

impl From<AllocError> for LineFault {
    fn from(_e: AllocError) -> LineFault {
        LineFault::Memory
    }
}

impl<T: Drop> From<AllocFailed<T>> for LineFault {
    fn from(_e: AllocFailed<T>) -> LineFault {
        LineFault::Memory
    }
}

/// Takes the lines of a case, one after the other.
pub trait Calls {
    /// Makes the call of a line, and adds what it gives.
    fn call(&mut self, line: &str, given: &mut Given) -> Result<(), LineFault>;
}

/// What a configuration opens, and the lines after it call.
pub trait Opens: Calls + Drop {
    /// Opens a configuration.
    fn open(alloc: Global, config: Checked) -> Result<Self, LineFault>;
}

/// What the most recent configuration opened.
#[derive(Drop)]
struct Opened<T> {
    last: Option<T>,
}

impl<T: Opens> Calls for Opened<T> {
    fn call(&mut self, line: &str, given: &mut Given) -> Result<(), LineFault> {
        if line.starts_with('{') {
            let config = configuration_of(given.alloc(), line)?;
            self.last = Some(T::open(given.alloc(), config)?);
            return Ok(());
        }
        match &mut self.last {
            Some(opened) => opened.call(line, given),
            None => Err(LineFault::Malformed),
        }
    }
}

/// The words of a line.
#[derive(Clone, Copy)]
pub struct Words<'a> {
    rest: &'a str,
}

impl<'a> Words<'a> {
    /// Returns all words of a line.
    pub fn of(line: &'a str) -> Words<'a> {
        Words { rest: line }
    }

    /// Returns the next word, or an empty one after the last.
    pub fn next(&mut self) -> &'a str {
        let (word, rest) = self.rest.split_once(' ').unwrap_or((self.rest, ""));
        self.rest = rest;
        word
    }

    /// Reads the next word as a number.
    pub fn number(&mut self) -> Result<u64, LineFault> {
        number_of(self.next())
    }

    /// Reads the next word as a 32-bit number.
    pub fn short(&mut self) -> Result<u32, LineFault> {
        short_of(self.next())
    }

    /// Reads all other words as one number.
    pub fn last_number(self) -> Result<u64, LineFault> {
        number_of(self.rest)
    }

    /// Reads all other words as one 32-bit number.
    pub fn last_short(self) -> Result<u32, LineFault> {
        short_of(self.rest)
    }

    /// Returns the other words, unchanged.
    pub fn rest(self) -> &'a str {
        self.rest
    }
}

/// Copies a text into the type of arn_ids.
pub fn text_of(alloc: Global, text: &str) -> Result<Text, AllocError> {
    Ok(Text::new(String::from_str(alloc, text)?))
}

/// Reads a text as a number.
pub fn number_of(text: &str) -> Result<u64, LineFault> {
    match text.parse::<u64>() {
        Ok(number) => Ok(number),
        Err(_) => Err(LineFault::Malformed),
    }
}

/// Reads a text as a number; a dash is `None`.
pub fn number_if_given(text: &str) -> Result<Option<u64>, LineFault> {
    match text {
        "-" => Ok(None),
        _ => Ok(Some(number_of(text)?)),
    }
}

/// Reads a text as a 32-bit number.
pub fn short_of(text: &str) -> Result<u32, LineFault> {
    match text.parse::<u32>() {
        Ok(number) => Ok(number),
        Err(_) => Err(LineFault::Malformed),
    }
}

/// Returns the only part of a case, which must be `calls`.
fn calls_of(case: &Case) -> Result<&Part, CaseFault> {
    match case.part("calls") {
        Some(part) if case.parts().len() == 1 => Ok(part),
        _ => Err(CaseFault::Missing { part: "calls" }),
    }
}

/// Makes the calls of a case, which has one part, `calls`.
pub fn make_calls<C: Calls>(
    case: &Case,
    calls: &mut C,
    given: &mut Given,
) -> Result<(), CaseFault> {
    let part = calls_of(case)?;
    let mut number = part.line();
    for line in part.lines().split('\n') {
        number = number.saturating_add(1);
        if let Err(fault) = calls.call(line, given) {
            return Err(fault_at(number, fault));
        }
    }
    Ok(())
}

/// Makes the calls of a case. A line that is a configuration opens what the lines after it call.
pub fn call_opened<T: Opens>(case: &Case, given: &mut Given) -> Result<(), CaseFault> {
    make_calls(case, &mut Opened::<T> { last: None }, given)
}

fn fault_at(line: u64, fault: LineFault) -> CaseFault {
    match fault {
        LineFault::Memory => CaseFault::Memory,
        LineFault::Malformed => CaseFault::Malformed {
            line,
            what: "a call that can be made is wanted",
        },
    }
}

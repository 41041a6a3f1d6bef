//! Concurrency: what an account's limits admit and reserve.

ghost use Rattle.std.specs.Prelude.{◌≤◌, length};

use crate::parts::lines::{Calls, LineFault, Opens, Words, call_opened};
use crate::shown::tell;
use arn_ids::{Checked, FnNo};
use case_tables::{Case, CaseFault, Given};
use concurrency_pool::Pool;
use std::alloc::Global;

fn invoke(pool: &mut Pool, function: FnNo, given: &mut Given)
    requires from_one { 1 ≤ function }
    requires there { function ≤ length pool.old.functions }
{
    match pool.may_admit(function) {
        Ok(()) => {
            pool.charge(function);
            given.push("admitted\n");
        }
        Err(reason) => tell(given, &reason),
    }
}

fn release(pool: &mut Pool, function: FnNo) -> Result<(), LineFault>
    requires from_one { 1 ≤ function }
    requires there { function ≤ length pool.old.functions }
{
    if pool.in_flight(function) == 0 {
        return Err(LineFault::Malformed);
    }
    pool.release(function);
    Ok(())
}

/// Reads a reservation.
fn count_of(words: Words<'_>) -> Result<Option<u32>, LineFault> {
    match words.rest() {
        "-" => Ok(None),
        _ => Ok(Some(words.last_short()?)),
    }
}

fn reserve(pool: &mut Pool, function: FnNo, count: Option<u32>, given: &mut Given)
    requires from_one { 1 ≤ function }
    requires there { function ≤ length pool.old.functions }
{
    if !pool.may_reserve(function, count) {
        given.push("refused\n");
        return;
    }
    pool.reserve(function, count);
    given.push("reserved\n");
}

/// Makes a call about a function.
fn call_function(
    pool: &mut Pool,
    word: &str,
    words: Words<'_>,
    given: &mut Given,
) -> Result<(), LineFault> {
    let mut words = words;
    let function = words.short()?;
    if function < 1 || pool.functions() < function {
        return Err(LineFault::Malformed);
    }
    match word {
        "invoke" => invoke(pool, function, given),
        "release" => return release(pool, function),
        "reserve" => reserve(pool, function, count_of(words)?, given),
        "in-flight" => tell(given, &pool.in_flight(function)),
        "reservation" => tell(given, &pool.reservation(function)),
        _ => return Err(LineFault::Malformed),
    }
    Ok(())
}

impl Calls for Pool {
    fn call(&mut self, line: &str, given: &mut Given) -> Result<(), LineFault> {
        let mut words = Words::of(line);
        match words.next() {
            "functions" => tell(given, &self.functions()),
            "in-flight-in-all" => tell(given, &self.in_flight_in_all()),
            word => return call_function(self, word, words, given),
        }
        Ok(())
    }
}

impl Opens for Pool {
    fn open(alloc: Global, config: Checked) -> Result<Pool, LineFault> {
        match Pool::open(alloc, &config) {
            Ok(pool) => Ok(pool),
            Err(_) => Err(LineFault::Memory),
        }
    }
}

/// Adds what the lines of a case about a pool give.
///
/// | Line | What it gives |
/// |---|---|
/// | `{..}` | nothing; the account that the lines after it call |
/// | `invoke F` | `admitted`, and one more is in flight; or the limit that throttles it |
/// | `release F` | nothing; one fewer is in flight |
/// | `reserve F N`, `reserve F -` | whether the reservation is accepted |
/// | `in-flight F`, `reservation F`, `functions`, `in-flight-in-all` | this value of the pool |
pub fn give(case: &Case, given: &mut Given) -> Result<(), CaseFault> {
    call_opened::<Pool>(case, given)
}

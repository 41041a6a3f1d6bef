//! Checks of the service over sockets, in the tables below `sockets`. A check serves a
//! configuration on free ports, lets peers send and receive bytes, and gives what they received.
#![tactic(auto)]

mod acts;
mod checks;
mod flood;
mod readings;
mod server;
mod stage;

use crate::checks::{Checks, Ran};
use crate::readings::Readings;
use case_tables::{Case, TableFault, judge_case, note_case, read_file, run_file, tell_count};
pub use http_connection::Machine;
use std::alloc::AllocError;
use std::io::Read;
use std::rt::Files;
use std::thread;
use std::thread::JoinHandle;

/// The file of readings.
const READING_CASES: &str = "sockets/readings.txt";

/// The files of short checks.
const QUICK_CHECKS: [&str; 9] = [
    "sockets/calls.txt",
    "sockets/words.txt",
    "sockets/identifiers.txt",
    "sockets/departures.txt",
    "sockets/guards.txt",
    "sockets/bodies.txt",
    "sockets/hosts.txt",
    "sockets/history.txt",
    "sockets/traces.txt",
];

/// The checks of peers that stop responding, which the service tolerates for twenty seconds. They
/// run beside the others, and their results are printed after those.
const SLOW_CHECKS: &str = "sockets/standing_still.txt";

/// Prints the last line of what a check gave, and returns whether it gave what it should. On standard error it notes
/// when it had to be played again.
fn tell_check<R: Print + Eprint>(
    rt: &R,
    file: &'static str,
    case: &Case,
    ran: &Ran,
) -> Result<bool, TableFault> {
    for given in ran.before.iter() {
        note_case(rt, file, case, given.as_str());
    }
    let name = case.name();
    let given = ran.given.as_str();
    let ended = given.lines().last().unwrap_or("");
    // If standard output accepts nothing, it doesn't get the count of the cases either.
    let _told = println!(rt; "{name}: {ended}");
    judge_case(rt, file, case, ran.came, given)
}

/// Runs a check of a file, prints its result at once, and returns whether it agrees.
fn run_check<R: Machine + Print + Eprint>(
    rt: &R,
    file: &'static str,
    checks: &Checks<R>,
    case: &Case,
) -> Result<bool, TableFault> {
    let ran = checks.run(rt.alloc(), case);
    tell_check(rt, file, case, &ran)
}

/// Runs the checks of a file, prints each result at once, and returns whether all agree.
fn run_checks<R: Machine + Files + Print + Eprint>(
    rt: R,
    file: &'static str,
    checks: &Checks<R>,
) -> Result<bool, TableFault>
where
    R::File: Read + Drop,
{
    let cases = read_file(&rt, file)?;
    let mut agree = true;
    for case in cases.iter() {
        if !run_check(&rt, file, checks, case)? {
            agree = false;
        }
    }
    if agree {
        tell_count(&rt, file, cases.as_slice())?;
    }
    Ok(agree)
}

/// Runs the files of short checks.
fn run_quick<R: Machine + Files + Print + Eprint>(rt: R) -> Result<bool, TableFault>
where
    R::File: Read + Drop,
{
    let mut agree = run_file(&rt, READING_CASES, &Readings)?;
    let checks = Checks::new(rt);
    for file in QUICK_CHECKS {
        if !run_checks(rt, file, &checks)? {
            agree = false;
        }
    }
    Ok(agree)
}

/// Checks that were run, and whose results are not printed yet.
#[derive(Drop)]
struct Slow {
    cases: Vec<Case>,
    ran: Result<Vec<Ran>, AllocError>,
}

/// Runs checks, and prints nothing.
fn all_ran<R: Machine>(rt: R, cases: &[Case]) -> Result<Vec<Ran>, AllocError> {
    let checks = Checks::new(rt);
    let mut ran = Vec::with_capacity(rt.alloc(), cases.len())?;
    for case in cases {
        ran.push(checks.run(rt.alloc(), case))?;
    }
    Ok(ran)
}

/// Runs checks, and returns them with what they gave.
fn run_slow<R: Machine>(rt: R, cases: Vec<Case>) -> Slow {
    let ran = all_ran(rt, cases.as_slice());
    Slow { cases, ran }
}

/// Starts a thread that runs checks.
fn start_slow<R: Machine>(rt: R, cases: Vec<Case>) -> Result<JoinHandle<Slow>, AllocError> {
    match thread::spawn(&rt, move || run_slow(rt, cases)) {
        Ok(slow) => Ok(slow),
        Err(_) => Err(AllocError),
    }
}

/// Prints the results of checks that were run, and returns whether all agree.
fn tell_slow<R: Print + Eprint>(rt: &R, slow: &Slow) -> Result<bool, TableFault> {
    let Ok(ran) = &slow.ran else {
        return Err(TableFault::OutOfMemory);
    };
    let mut agree = true;
    for (case, ran) in slow.cases.iter().zip(ran.iter()) {
        if !tell_check(rt, SLOW_CHECKS, case, ran)? {
            agree = false;
        }
    }
    if agree {
        tell_count(rt, SLOW_CHECKS, slow.cases.as_slice())?;
    }
    Ok(agree)
}

/// Runs the checks in the current folder, and returns whether all agree. Prints how each ended and
/// the number of checks in each table; for each that gives something else, prints the first line
/// that differs.
///
/// # Errors
/// Any `TableFault`; the tables after it are not run.
pub fn run<R: Machine + Files + Print + Eprint>(rt: R) -> Result<bool, TableFault>
where
    R::File: Read + Drop,
{
    let cases = read_file(&rt, SLOW_CHECKS)?;
    let slow = start_slow(rt, cases)?;
    let quick = run_quick(rt);
    let slow = slow.join(&rt);
    match quick {
        Ok(true) => tell_slow(&rt, &slow),
        _ => quick,
    }
}

//! Runs the cases of a file, and prints which differ.

use crate::case::Case;
use crate::fault::{CaseFault, TableFault};
use crate::table::read_cases;
use std::alloc::Global;
use std::fs;
use std::io::Read;
use std::process::ExitCode;
use std::rt::Files;

/// The subject of a file's cases.
pub trait Subject {
    /// Appends what the case gives, as lines, to `given`.
    fn give(&self, alloc: Global, case: &Case, given: &mut String) -> Result<(), CaseFault>;
}

/// The first line in which two texts differ: its number, and the line in each text.
#[derive(Clone, Copy)]
struct Difference<'a> {
    number: u64,
    wanted: Option<&'a str>,
    given: Option<&'a str>,
}

/// Returns the first line in which the texts differ.
fn first_difference<'a>(wanted: &'a str, given: &'a str) -> Option<Difference<'a>> {
    let mut wanted = wanted.split('\n');
    let mut given = given.split('\n');
    for number in 1..u64::MAX {
        let line = wanted.next();
        let other = given.next();
        if line != other {
            return Some(Difference {
                number,
                wanted: line,
                given: other,
            });
        }
        if line.is_none() {
            break;
        }
    }
    None
}

/// Prints that a case of a file differs.
fn tell(
    rt: &impl Print,
    file: &'static str,
    case: &Case,
    difference: &Difference<'_>,
) -> Result<(), TableFault> {
    let name = case.name();
    let number = difference.number;
    let wanted = difference.wanted.unwrap_or("no line");
    let given = difference.given.unwrap_or("no line");
    println!(rt;
        "{file}: {name}: line {number} of what it gives: wanted {wanted:?}, got {given:?}"
    ).map_err(|fault| TableFault::at_output(&fault))
}

/// Returns whether a case gave what it should; if not, prints where it differs.
///
/// # Errors
/// The fault of a case that could not be run.
pub fn judge_case(
    rt: &impl Print,
    file: &'static str,
    case: &Case,
    came: Result<(), CaseFault>,
    given: &str,
) -> Result<bool, TableFault> {
    if let Err(fault) = came {
        return Err(TableFault::of_case(file, case.line(), fault));
    }
    match first_difference(case.wanted(), given) {
        None => Ok(true),
        Some(difference) => {
            tell(rt, file, case, &difference)?;
            Ok(false)
        }
    }
}

/// Prints on standard error that a case is played again, and where it differed.
pub fn note_case(rt: &impl Eprint, file: &'static str, case: &Case, given: &str) {
    let Some(difference) = first_difference(case.wanted(), given) else {
        return;
    };
    let name = case.name();
    let number = difference.number;
    let wanted = difference.wanted.unwrap_or("no line");
    let given = difference.given.unwrap_or("no line");
    // If standard error accepts nothing, the result still tells whether the case agrees.
    let _told = eprintln!(rt;
        "note {file}: {name}: played again: line {number} of what it gives: wanted {wanted:?}, got {given:?}"
    );
}

/// Reads the cases of a file in the current folder.
///
/// # Errors
/// Any `TableFault`.
pub fn read_file<R: Files + AllocGlobal>(
    rt: &R,
    file: &'static str,
) -> Result<Vec<Case>, TableFault>
where
    R::File: Read + Drop,
{
    let text = match fs::read_to_string(rt, file) {
        Ok(text) => text,
        Err(fault) => return Err(TableFault::at_input(file, &fault)),
    };
    match read_cases(rt.alloc(), text.as_str()) {
        Ok(cases) => Ok(cases),
        Err(fault) => Err(TableFault::of_case(file, 1, fault)),
    }
}

/// Prints that all these cases of a file agree.
///
/// # Errors
/// `Write` or `OutOfMemory`.
pub fn tell_count(rt: &impl Print, file: &'static str, cases: &[Case]) -> Result<(), TableFault> {
    let count = cases.len();
    println!(rt; "{file}: {count} cases").map_err(|fault| TableFault::at_output(&fault))
}

/// Runs a case, and returns whether it agrees.
fn run_case<R: Print + AllocGlobal, S: Subject>(
    rt: &R,
    file: &'static str,
    subject: &S,
    case: &Case,
) -> Result<bool, TableFault> {
    let mut given = String::new(rt.alloc());
    let came = subject.give(rt.alloc(), case, &mut given);
    judge_case(rt, file, case, came, given.as_str())
}

/// Runs the cases of a file, and returns whether all agree.
fn run_cases<R: Print + AllocGlobal, S: Subject>(
    rt: &R,
    file: &'static str,
    subject: &S,
    cases: &[Case],
) -> Result<bool, TableFault> {
    let mut agree = true;
    for case in cases {
        if !run_case(rt, file, subject, case)? {
            agree = false;
        }
    }
    if agree {
        tell_count(rt, file, cases)?;
    }
    Ok(agree)
}

/// Runs each case of a file in the current folder. Prints a line for each case that gives another
/// text than it should, and then the number of cases; returns whether all agreed. (A method cannot
/// run a case that starts threads: a caller with such cases reads the file, and runs and judges
/// each.)
///
/// # Errors
/// Any `TableFault`; a fault of a case ends the run of its file.
pub fn run_file<R: Files + Print + AllocGlobal, S: Subject>(
    rt: &R,
    file: &'static str,
    subject: &S,
) -> Result<bool, TableFault>
where
    R::File: Read + Drop,
{
    let cases = read_file(rt, file)?;
    run_cases(rt, file, subject, cases.as_slice())
}

/// Runs files in order, each with its subject, and returns whether all agree.
///
/// # Errors
/// Any `TableFault`; it ends the run of the files.
pub fn run_files<R: Files + Print + AllocGlobal, S: Subject>(
    rt: &R,
    files: &[(&'static str, S)],
) -> Result<bool, TableFault>
where
    R::File: Read + Drop,
{
    let mut agree = true;
    for (file, subject) in files {
        if !run_file(rt, *file, subject)? {
            agree = false;
        }
    }
    Ok(agree)
}

/// Returns the exit code of a program that ran its tables: 0 if all agree, 1 if a case differs;
/// otherwise that of the fault, which is printed on standard error.
pub fn end(rt: &impl Eprint, outcome: Result<bool, TableFault>) -> ExitCode {
    match outcome {
        Ok(true) => ExitCode::SUCCESS,
        Ok(false) => ExitCode::from(1),
        Err(fault) => {
            // If standard error accepts nothing either, only the status tells.
            let _told = eprintln!(rt; "{fault}");
            ExitCode::from(fault.status())
        }
    }
}

//! The checks of accounts in memory, in the tables below `accounts`, `ledgers` and `exchanges`:
//! desks behind their locks, the bells of waiting callers, threads that share an account, and
//! settlements of true and of forged tallies; the ledgers of their counts; and the polls and
//! exchanges of `long_poll`, over an account and over a service that behaves as a case says.
#![tactic(auto)]

mod accounts;
mod desks;
mod exchanges;
mod ledgers;
mod lines;
mod opening;
mod tallies;

use case_tables::{Case, CaseFault, Given, TableFault, judge_case, read_file, tell_count};
use std::io::Read;
use std::random::RandomSource;
use std::rt::Files;
use std::sync::Wait;
use std::thread::Threads;
use std::time::Clock;

/// What the checks need from the machine that they run on: threads, locks, a clock to sleep by, random
/// bytes, somewhere to print and memory, by a handle of which each thread has a copy.
pub trait Runner: Wait
    + Threads
    + Clock
    + RandomSource
    + Print
    + AllocGlobal
    + Copy
    + Send
    + Sync
    + Drop
    + 'static {}

impl<R> Runner for R
where
    R: Wait
        + Threads
        + Clock
        + RandomSource
        + Print
        + AllocGlobal
        + Copy
        + Send
        + Sync
        + Drop
        + 'static,
{}

/// The subject of a file's cases.
#[derive(Clone, Copy)]
enum Table {
    Accounts,
    Desks,
    Ledgers,
    Exchanges,
}

/// The files.
const TABLES: [(&str, Table); 11] = [
    ("accounts/openings.txt", Table::Accounts),
    ("accounts/environments.txt", Table::Accounts),
    ("accounts/bells.txt", Table::Accounts),
    ("accounts/settlements.txt", Table::Accounts),
    ("accounts/threads.txt", Table::Accounts),
    ("accounts/desks.txt", Table::Desks),
    ("ledgers/tallies.txt", Table::Ledgers),
    ("exchanges/calls.txt", Table::Exchanges),
    ("exchanges/polls.txt", Table::Exchanges),
    ("exchanges/bodies.txt", Table::Exchanges),
    ("exchanges/services.txt", Table::Exchanges),
];

/// Adds what a case gives.
fn tell<R: Runner>(rt: R, table: Table, case: &Case, given: &mut Given) -> Result<(), CaseFault> {
    let told = match table {
        Table::Accounts => accounts::give(rt, case, given),
        Table::Desks => desks::give(rt, case, given),
        Table::Ledgers => ledgers::give(case, given),
        Table::Exchanges => exchanges::give(rt, case, given),
    };
    told?;
    given.end()
}

/// Runs a case of a table, and returns whether it agrees.
fn run_case<R: Runner>(
    rt: R,
    file: &'static str,
    table: Table,
    case: &Case,
) -> Result<bool, TableFault> {
    let mut given = Given::new(rt.alloc());
    let came = tell(rt, table, case, &mut given);
    judge_case(&rt, file, case, came, given.as_str())
}

/// Runs the cases of a table, and returns whether all agree.
fn run_cases<R: Runner>(
    rt: R,
    file: &'static str,
    table: Table,
    cases: &[Case],
) -> Result<bool, TableFault> {
    let mut agree = true;
    for case in cases {
        if !run_case(rt, file, table, case)? {
            agree = false;
        }
    }
    if agree {
        tell_count(&rt, file, cases)?;
    }
    Ok(agree)
}

/// Reads a table, runs its cases, and returns whether all agree.
fn run_table<R: Runner + Files>(rt: R, file: &'static str, table: Table) -> Result<bool, TableFault>
where
    R::File: Read + Drop,
{
    let cases = read_file(&rt, file)?;
    run_cases(rt, file, table, cases.as_slice())
}

/// Runs the tables in the current folder, and returns whether all of their cases agree. Prints the
/// number of cases in each table; for each case that gives something else, prints the first line
/// that differs.
///
/// # Errors
/// Any `TableFault`; the tables after it are not run.
pub fn run<R: Runner + Files>(rt: R) -> Result<bool, TableFault>
where
    R::File: Read + Drop,
{
    let mut agree = true;
    for (file, table) in TABLES {
        if !run_table(rt, file, table)? {
            agree = false;
        }
    }
    Ok(agree)
}

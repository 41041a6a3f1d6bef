//! Runs the tables of checks in the current folder: `checks` runs all, and `checks GROUP` those of
//! one subject: `examples`, `accounts` or `sockets`.
#![tactic(auto)]

use case_tables::{TableFault, end};
use socket_checks::Machine;
use std::env::{self, Env};
use std::io::{self, Read};
use std::marker::PhantomData;
use std::net::{TcpListener, TcpStream};
use std::process::ExitCode;
use std::rt::Files;

/// Which tables to run.
#[derive(Clone, Copy)]
enum Group {
    All,
    Examples,
    Accounts,
    Sockets,
}

/// Returns the group with this name, if there is one.
fn group_named(word: &str) -> Option<Group> {
    match word {
        "examples" => Some(Group::Examples),
        "accounts" => Some(Group::Accounts),
        "sockets" => Some(Group::Sockets),
        _ => None,
    }
}

/// Reads the group from the arguments, if they name one.
fn read_arguments<R: Env + AllocGlobal>(rt: &R) -> io::Result<Option<Group>> {
    let mut words = env::args(rt)?.skip(1);
    let Some(word) = words.next() else {
        return Ok(Some(Group::All));
    };
    match words.next() {
        None => Ok(group_named(word.as_str())),
        Some(_) => Ok(None),
    }
}

/// Runs all tables, and returns whether all of their cases agree.
fn run_all<R: Machine + Files + Print + Eprint>(rt: R) -> Result<bool, TableFault>
where
    R::File: Read + Drop,
{
    let examples = worked_examples::run(&rt)?;
    let accounts = account_checks::run(rt)?;
    let sockets = socket_checks::run(rt)?;
    Ok(examples && accounts && sockets)
}

/// Runs the tables of a group, and returns whether all of their cases agree.
fn run<R: Machine + Files + Print + Eprint>(rt: R, group: Group) -> Result<bool, TableFault>
where
    R::File: Read + Drop,
{
    match group {
        Group::All => run_all(rt),
        Group::Examples => worked_examples::run(&rt),
        Group::Accounts => account_checks::run(rt),
        Group::Sockets => socket_checks::run(rt),
    }
}

fn main(rt: HostRuntime) -> ExitCode {
    // (So that the types of the machine's sockets, which the checks over sockets ask for, are among
    // those of `main`.)
    let _: PhantomData<(TcpListener, TcpStream)> = PhantomData;
    match read_arguments(&rt) {
        Ok(Some(group)) => end(&rt, run(rt, group)),
        Err(error) if error.kind() == io::ErrorKind::OutOfMemory => {
            end(&rt, Err(TableFault::OutOfMemory))
        }
        _ => {
            // If standard error accepts nothing either, only the status tells.
            let _told = eprintln!(rt; "usage: checks [examples | accounts | sockets]");
            ExitCode::from(2)
        }
    }
}

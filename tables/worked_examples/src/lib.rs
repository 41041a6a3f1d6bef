//! The worked examples of everything that needs no threads: the tables in `parts`, `wire`, `handed`,
//! `routes` and `scripts`, run through the public calls.
#![tactic(auto)]

mod accounts;
mod answers;
mod handed;
mod parts;
mod routes;
mod scripts;
mod shown;
mod wire;

use case_tables::{Case, CaseFault, Given, Subject, TableFault, run_files};
use std::alloc::{AllocGlobal, Global};
use std::io::Read;
use std::rt::Files;

/// The subject of a file's cases.
#[derive(Clone, Copy)]
enum Table {
    /// The parts of an account.
    Parts(parts::Table),
    /// Bodies and headers, and the replies of answers.
    Wire(wire::Table),
    /// Requests on a port.
    Routes,
    /// Requests that are handed over.
    Handed(handed::Table),
    /// Scripts, and the books that take them.
    Scripts(scripts::Table),
}

/// The files. Those whose shortest case is long come last: a test that lets each allocation fail in
/// turn reaches them least often.
const TABLES: [(&str, Table); 47] = [
    ("parts/names.txt", Table::Parts(parts::Table::Names)),
    (
        "parts/identifiers.txt",
        Table::Parts(parts::Table::Identifiers),
    ),
    (
        "parts/configurations.txt",
        Table::Parts(parts::Table::Configurations),
    ),
    ("parts/scripts.txt", Table::Parts(parts::Table::ScriptLines)),
    ("parts/histories.txt", Table::Parts(parts::Table::Histories)),
    ("parts/heads.txt", Table::Parts(parts::Table::Heads)),
    ("parts/pools.txt", Table::Parts(parts::Table::Pools)),
    ("parts/deadlines.txt", Table::Parts(parts::Table::Deadlines)),
    ("parts/places.txt", Table::Parts(parts::Table::Places)),
    ("parts/ports.txt", Table::Parts(parts::Table::Ports)),
    ("parts/moves.txt", Table::Parts(parts::Table::Moves)),
    (
        "parts/extensions.txt",
        Table::Parts(parts::Table::Extensions),
    ),
    (
        "parts/environments.txt",
        Table::Parts(parts::Table::Environments),
    ),
    ("wire/bodies.txt", Table::Wire(wire::Table::Bodies)),
    ("wire/headers.txt", Table::Wire(wire::Table::Headers)),
    ("wire/refusals.txt", Table::Wire(wire::Table::Refusals)),
    ("wire/payloads.txt", Table::Wire(wire::Table::Payloads)),
    (
        "wire/registrations.txt",
        Table::Wire(wire::Table::Registrations),
    ),
    (
        "wire/reservations.txt",
        Table::Wire(wire::Table::Reservations),
    ),
    (
        "wire/configurations.txt",
        Table::Wire(wire::Table::Configurations),
    ),
    ("wire/replies.txt", Table::Wire(wire::Table::Replies)),
    (
        "handed/requests.txt",
        Table::Handed(handed::Table::Requests),
    ),
    (
        "handed/messages.txt",
        Table::Handed(handed::Table::Messages),
    ),
    ("handed/pipes.txt", Table::Handed(handed::Table::Pipes)),
    ("routes/routes.txt", Table::Routes),
    ("routes/worked.txt", Table::Routes),
    ("routes/names.txt", Table::Routes),
    ("routes/reservations.txt", Table::Routes),
    ("routes/runtimes.txt", Table::Routes),
    ("routes/extensions.txt", Table::Routes),
    ("routes/registrations.txt", Table::Routes),
    ("routes/handed.txt", Table::Routes),
    ("scripts/calls.txt", Table::Scripts(scripts::Table::Scripts)),
    (
        "scripts/extensions.txt",
        Table::Scripts(scripts::Table::Scripts),
    ),
    ("scripts/times.txt", Table::Scripts(scripts::Table::Scripts)),
    (
        "scripts/limits.txt",
        Table::Scripts(scripts::Table::Scripts),
    ),
    (
        "scripts/faults.txt",
        Table::Scripts(scripts::Table::Scripts),
    ),
    (
        "scripts/streams.txt",
        Table::Scripts(scripts::Table::Scripts),
    ),
    ("scripts/books.txt", Table::Scripts(scripts::Table::Books)),
    ("scripts/full.txt", Table::Scripts(scripts::Table::Books)),
    (
        "scripts/readings.txt",
        Table::Scripts(scripts::Table::Books),
    ),
    (
        "scripts/rendered.txt",
        Table::Scripts(scripts::Table::Books),
    ),
    ("scripts/early.txt", Table::Scripts(scripts::Table::Books)),
    ("routes/operator.txt", Table::Routes),
    ("routes/invokes.txt", Table::Routes),
    ("scripts/long.txt", Table::Scripts(scripts::Table::Scripts)),
    (
        "parts/long_lines.txt",
        Table::Parts(parts::Table::ScriptLines),
    ),
];

impl Table {
    /// Adds what a case gives.
    fn tell(self, case: &Case, given: &mut Given) -> Result<(), CaseFault> {
        match self {
            Table::Parts(table) => table.tell(case, given),
            Table::Wire(table) => table.tell(case, given),
            Table::Routes => routes::give(case, given),
            Table::Handed(table) => table.tell(case, given),
            Table::Scripts(table) => table.tell(case, given),
        }
    }
}

impl Subject for Table {
    fn give(&self, alloc: Global, case: &Case, given: &mut String) -> Result<(), CaseFault> {
        let mut told = Given::new(alloc);
        self.tell(case, &mut told)?;
        told.hand_over(given)
    }
}

/// Runs the tables in the current folder, and returns whether all of their cases agree. Prints the
/// number of cases in each table; for each case that gives something else, prints the first line
/// that differs.
///
/// # Errors
/// Any `TableFault`; the tables after it are not run.
pub fn run<R: Files + Print + AllocGlobal>(rt: &R) -> Result<bool, TableFault>
where
    R::File: Read + Drop,
{
    run_files(rt, &TABLES)
}

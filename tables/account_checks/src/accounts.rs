//! Cases of accounts: each runs on an account, and on a desk that is then put behind a lock.

mod bells;
mod crowds;
mod forging;
mod places;
mod running;
mod seats;
mod stand;
mod texts;

ghost use Rattle.std.specs.Prelude.{◌≡◌, ◌^◌};
ghost use Rattle.std.specs.Arc.{arc_value};

use crate::Runner;
use crate::accounts::bells::Bells;
use crate::accounts::places::{Way, open};
use crate::accounts::running::{Deed, deed_of, end_case, one_part, turns_of};
use crate::accounts::seats::{Seats, crowd};
use crate::opening::{Opening, opening_of};
use account_book::OpenFault;
use account_lock::Identity;
use case_tables::{Case, CaseFault, Given, Part};
use std::marker::Brand;
use usage_ledger::{Blanks, Keep, KeepAll, KeepNone};

/// Performs a part.
fn play_part<R: Runner, S: Identity + Send + Sync + Drop, K: Keep + Send + Sync>(
    seats: &mut Seats<R, S, K>,
    bells: &mut Bells,
    part: &Part,
    given: &mut Given,
) -> Result<(), CaseFault> {
    match deed_of(part)? {
        Deed::Crowd => crowd(seats, bells, turns_of(part)?),
        deed => one_part(seats, bells, deed, part, given),
    }
}

/// Performs the parts of a case, in their order.
fn play_parts<R: Runner, S: Identity + Send + Sync + Drop, K: Keep + Send + Sync>(
    seats: &mut Seats<R, S, K>,
    bells: &mut Bells,
    case: &Case,
    given: &mut Given,
) -> Result<(), CaseFault> {
    for part in case.parts() {
        play_part(seats, bells, part, given)?;
    }
    Ok(())
}

/// Performs the parts of a case in their order, and then the settlement.
fn run_case<R: Runner, S: Identity + Send + Sync + Drop, K: Keep + Send + Sync>(
    case: &Case,
    seats: Seats<R, S, K>,
    bells: &mut Bells,
    given: &mut Given,
) -> Result<(), CaseFault> {
    let mut seats = seats;
    match play_parts(&mut seats, bells, case, given) {
        Ok(()) => end_case(case, seats, given),
        Err(fault) => Err(fault),
    }
}

/// Adds why nothing was opened.
fn push_unopened(fault: OpenFault, given: &mut Given) -> Result<(), CaseFault> {
    match fault {
        OpenFault::OutOfMemory => Err(CaseFault::Memory),
        OpenFault::EntriesOutOfRange => {
            given.push("EntriesOutOfRange\n");
            Ok(())
        }
    }
}

/// Opens what a case configures, and runs the case.
fn play<R: Runner, S: Identity + Send + Sync + Drop, K: Keep + Send + Sync>(
    rt: R,
    case: &Case,
    way: Way,
    opening: Opening,
    blanks: Blanks,
    bells: &mut Bells,
    given: &mut Given,
) -> Result<(), CaseFault>
    requires configured { arc_value opening.config ≡ S.config }
    requires salted { opening.salt ≡ S.salt }
    requires limited { opening.max_entries ≡ S.most }
    requires named { blanks ≡ S.names }
{
    match open::<R, S, K>(rt, given.alloc(), way, opening, blanks) {
        Ok(opened) => run_case(case, Seats::new(opened, way)?, bells, given),
        Err(fault) => push_unopened(fault, given),
    }
}

/// Names the configuration, the salt, the ledgers and the history of a case.
fn play_by_brand<R: Runner, K: Keep + Send + Sync>(
    rt: R,
    case: &Case,
    way: Way,
    opening: Opening,
    bells: &mut Bells,
    given: &mut Given,
) -> Result<(), CaseFault> {
    let blanks = Blanks::new(given.alloc())?;
    play::<R, Brand, K>(rt, case, way, opening, blanks, bells, given)
}

/// Whether the tallies of a case keep everything.
fn keeps_all(case: &Case) -> Result<bool, CaseFault> {
    match case.part("keep") {
        None => Ok(true),
        Some(part) if part.arguments() == "none" => Ok(false),
        Some(part) => Err(part.malformed("keep none is wanted")),
    }
}

/// Runs a case on an account or on a desk.
fn run_in<R: Runner>(rt: R, case: &Case, way: Way, given: &mut Given) -> Result<(), CaseFault> {
    let keeps_all = keeps_all(case)?;
    let mut bells = Bells::new(given.alloc())?;
    let opening = opening_of(given.alloc(), case)?;
    if keeps_all {
        play_by_brand::<R, KeepAll>(rt, case, way, opening, &mut bells, given)
    } else {
        play_by_brand::<R, KeepNone>(rt, case, way, opening, &mut bells, given)
    }
}

/// Adds what a desk gave, if it differs from what an account gave.
fn push_other(given: &mut Given, other: &Given) -> Result<(), CaseFault> {
    other.end()?;
    if given.as_str() != other.as_str() {
        given.push("by a desk:\n");
        given.push(other.as_str());
    }
    given.end()
}

/// Adds what a case of the tables gives. It has these parts, in the order in which they happen:
///
/// | Part | What it says |
/// |---|---|
/// | `open` | the configuration; by default one function `f` on environment 1 |
/// | `keep none` | the tallies keep no receipts and no calls |
/// | `calls N` | calls as the lines of scripts, submitted with tally N (by default 0) |
/// | `quietly N` | the same, but nothing is added about them |
/// | `ask` | questions: `looks`, `look T`, `history T`, `render T`, `due MOMENT`, `life`, `stats` |
/// | `ask`, also | `environments`, `opening`, `reservation FUNCTION`, `tally N`, `bells` |
/// | `crowd N` | the calls that each of four threads makes N times |
/// | `join` | tallies 1 and 2 are joined |
/// | `hold-back` | tally 1 is missing when the account is settled |
/// | `forge WAY` | what tally 1 keeps is forged |
///
/// For a call, the case gives its ticket, the bells that rang (each call has one, numbered from 0),
/// and the answers. After the parts, the account is settled.
pub fn give<R: Runner>(rt: R, case: &Case, given: &mut Given) -> Result<(), CaseFault> {
    let mut other = Given::new(given.alloc());
    run_in(rt, case, Way::Account, given)?;
    run_in(rt, case, Way::Desk, &mut other)?;
    push_other(given, &other)
}

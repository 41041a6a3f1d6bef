//! Cases of polls and exchanges, and what each runs over.

mod asks;
mod board;
mod outcomes;
mod rows;
mod scene;

ghost use Rattle.std.specs.Prelude.{◌≡◌};
ghost use Rattle.std.specs.Arc.{arc_value};

use crate::Runner;
use crate::exchanges::board::{Board, Mood};
use crate::exchanges::rows::Rows;
use crate::exchanges::scene::{Scene, Served};
use crate::lines::{malformed, number_behind, number_of};
use crate::opening::{Opening, opening_of};
use account_book::OpenFault;
use account_lock::{Account, Identity};
use arn_ids::Checked;
use case_tables::{Case, CaseFault, Given, Part};
use long_poll::OneShotBell;
use std::alloc::Global;
use std::marker::Brand;
use std::sync::Arc;
use usage_ledger::{Blanks, KeepNone, Tally};

/// Reads how a board treats calls.
fn mood_in(part: &Part) -> Result<Mood, CaseFault> {
    match part.arguments() {
        "refuses JournalFull" => Ok(Mood::Refuses),
        "loses-bells" => Ok(Mood::LosesBells),
        "answers" => Ok(Mood::Answers(0)),
        other => {
            let count = other.strip_prefix("premature ").unwrap_or(other);
            Ok(Mood::Answers(number_of(part.line(), count)?))
        }
    }
}

/// What a case says about its service and its connections.
#[derive(Clone, Copy)]
struct Terms {
    /// How its board treats calls, if it has a board.
    mood: Option<Mood>,
    /// How long a connection holds back a premature call, in milliseconds.
    patience: u32,
}

/// Reads the terms of a case.
fn terms_of(case: &Case) -> Result<Terms, CaseFault> {
    let patience = match case.part("patience") {
        None => 0,
        Some(part) => number_behind(part)?.min(1000) as u32,
    };
    let mood = match case.part("board") {
        None => None,
        Some(part) => Some(mood_in(part)?),
    };
    Ok(Terms { mood, patience })
}

/// Returns the decider for a configuration, which must have an environment and a function.
fn rows_of<S: Identity>(
    alloc: Global,
    line: u64,
    config: &Checked,
) -> Result<Arc<Rows<S>>, CaseFault>
    requires { config.now ≡ S.config }
{
    if config.environments() < 1 || config.functions().len() < 1 {
        return Err(malformed(line, "a function with an environment is wanted"));
    }
    Ok(Arc::new(alloc, Rows::new())?)
}

/// Returns the fault of a case whose account cannot be opened.
fn not_opened(line: u64, fault: OpenFault) -> CaseFault {
    match fault {
        OpenFault::OutOfMemory => CaseFault::Memory,
        _ => malformed(line, "other entries are wanted"),
    }
}

/// A new account, and its tally.
type Opened<S> = (Account<S, OneShotBell>, Tally<KeepNone, S>);

/// Runs a case over an account.
fn play_over_account<R: Runner, S: Identity + Drop + Send + Sync>(
    rt: R,
    patience: u32,
    rows: Arc<Rows<S>>,
    opened: Opened<S>,
    case: &Case,
    given: &mut Given,
) -> Result<(), CaseFault> {
    let alloc = given.alloc();
    let (account, tally) = opened;
    let anchor = account.anchor(&mut account.token(&rt));
    let served = Served::new(alloc, account, anchor, rows, tally)?;
    scene::play(&Scene::new(rt, alloc, served, patience), case, given)
}

/// Runs a case over a board.
fn play_over_board<R: Runner, S: Identity + Drop + Send + Sync>(
    rt: R,
    patience: u32,
    rows: Arc<Rows<S>>,
    opened: Opened<S>,
    mood: Mood,
    case: &Case,
    given: &mut Given,
) -> Result<(), CaseFault> {
    let alloc = given.alloc();
    let (account, tally) = opened;
    let anchor = account.anchor(&mut account.token(&rt));
    let board = Board::new(alloc, mood, account);
    let scene = Scene::new(
        rt,
        alloc,
        Served::new(alloc, board, anchor, rows, tally)?,
        patience,
    );
    let played = scene::play(&scene, case, given);
    scene.service().push_noted(given);
    played
}

/// Opens a new account, and runs a case over it or over a board.
fn play<R: Runner, S: Identity + Drop + Send + Sync>(
    rt: R,
    terms: Terms,
    case: &Case,
    opening: Opening,
    blanks: Blanks,
    given: &mut Given,
) -> Result<(), CaseFault>
    requires configured { arc_value opening.config ≡ S.config }
    requires salted { opening.salt ≡ S.salt }
    requires limited { opening.max_entries ≡ S.most }
    requires named { blanks ≡ S.names }
{
    let rows = rows_of::<S>(given.alloc(), case.line(), &opening.config)?;
    let opened = Account::<S, OneShotBell>::open::<KeepNone>(
        given.alloc(),
        opening.config,
        opening.salt,
        opening.max_entries,
        blanks,
    );
    let patience = terms.patience;
    match opened {
        Err(fault) => Err(not_opened(case.line(), fault)),
        Ok(opened) => match terms.mood {
            None => play_over_account(rt, patience, rows, opened, case, given),
            Some(mood) => play_over_board(rt, patience, rows, opened, mood, case, given),
        },
    }
}

/// Adds what a case of the tables gives. It has these parts; all but the first three are in the
/// order in which they happen:
///
/// | Part | What it says |
/// |---|---|
/// | `open` | the configuration; by default one function `f` on environment 1 |
/// | `board MOOD` | a board, not an account; MOOD is `answers`, `loses-bells` or one of the next two |
/// | moods | `refuses JournalFull`; `premature N`: the first N attempts are premature |
/// | `patience N` | connections hold back premature calls for N milliseconds, not for 0 |
/// | `asks` | requests, one per line, made one after another |
/// | `at-once` | three requests, made at the same time |
/// | `drops` | requests that are dropped as soon as they wait |
/// | `lost T` | a `Poll` for the answer of ticket T, whose bell is dropped |
/// | `across` | a `Poll` on another thread for a Next, and a request that is dropped once it waits |
///
/// A request is a moment, which its connection's clock reads; a path; and a body. The body is one
/// piece, `=TEXT` or `letters N`. With `pieces N` before it, it is N such pieces; with `broken N`,
/// it fails after them. The paths `/next`, `/invoke` (of function 1), `/response` (to invocation 1)
/// and `/withdraw` (of ticket 0) are calls of environment 1; `/stats`, `/history` and
/// `/reservation` are shown; `/echo` returns the body, and any other path its length.
///
/// For a request, the case gives the reply or the history, or why there is none, or that it
/// `waits`; then the Next that its connection has open. For a board, it gives the calls at the end.
pub fn give<R: Runner>(rt: R, case: &Case, given: &mut Given) -> Result<(), CaseFault> {
    let terms = terms_of(case)?;
    let opening = opening_of(given.alloc(), case)?;
    let blanks = Blanks::new(given.alloc())?;
    play::<R, Brand>(rt, terms, case, opening, blanks, given)
}

//! Cases of ledgers: the tallies of one account from the root to their join, for each way to keep.

mod grudging;
mod steps;

ghost use Rattle.std.specs.Prelude.{◌≡◌};

use crate::ledgers::grudging::KeepGrudging;
use crate::ledgers::steps::Bench;
use case_tables::{Case, CaseFault, Given, Part};
use std::marker::Brand;
use usage_ledger::{Blanks, Keep, KeepAll, KeepNone, Ledgers, root};

/// Performs the steps in the lines of a part.
fn all_steps<K: Keep, L: Ledgers>(
    bench: &mut Bench<K, L>,
    part: &Part,
    given: &mut Given,
) -> Result<(), CaseFault> {
    let mut line = part.line();
    for text in part.lines().split('\n') {
        line = line.saturating_add(1);
        bench.step(line, text, given)?;
    }
    Ok(())
}

/// Opens the ledgers of a new account, and performs a part's steps on them.
fn play<K: Keep, L: Ledgers>(
    blanks: Blanks,
    part: &Part,
    given: &mut Given,
) -> Result<(), CaseFault>
    requires { blanks ≡ L.names }
{
    given.push("keeps all: ");
    given.print(&K::ALL);
    given.push("\n");
    let mut bench: Bench<K, L> = Bench::new(given.alloc(), root(given.alloc(), blanks))?;
    all_steps(&mut bench, part, given)
}

/// Names the ledgers of a part.
fn play_by_brand<K: Keep>(part: &Part, given: &mut Given) -> Result<(), CaseFault> {
    let blanks = Blanks::new(given.alloc())?;
    play::<K, Brand>(blanks, part, given)
}

/// Adds what a case of the tables gives. Its one part, `keep all`, `keep none` or `keep grudging`,
/// says what tallies keep: those that keep grudgingly keep everything, but refuse every other
/// request for room. Each of its lines is a step:
///
/// | Step | What it does |
/// |---|---|
/// | `look N` | adds tally N's parts, whether it was joined, and its calls and receipts |
/// | `note N RECEIPT` | tally N notes that the call was `delivered`, `accepted`, or given its `output` |
/// | `make N CALL` | tally N notes that the call `next`, `invoke` or `response` was made |
/// | `split N` | a tally with one part of tally N is appended |
/// | `join N` | tally N and the next one are joined, and moved to the end |
/// | `refuse N` | the same while allocations fail: adds the fault, and moves both to the end |
/// | `room N` | asks tally N for more room than there is, and adds that it is refused |
/// | `count N` | tally N counts three calls, one of which was admitted |
/// | `audit N` | compares the counts of tally N, which must have all parts, with the totals |
///
/// Tally 0 is there from the start, and has all parts.
pub fn give(case: &Case, given: &mut Given) -> Result<(), CaseFault> {
    let Some(part) = case.part("keep") else {
        return Err(CaseFault::Missing { part: "keep" });
    };
    match part.arguments() {
        "all" => play_by_brand::<KeepAll>(part, given),
        "none" => play_by_brand::<KeepNone>(part, given),
        "grudging" => play_by_brand::<KeepGrudging>(part, given),
        _ => Err(part.malformed("all, none or grudging is wanted")),
    }
}

//! Tallies, with which callers keep their shares of the counts: what cases do to them, and what is
//! seen of them.

ghost use Rattle.std.specs.Prelude.{◌<◌, ◌≤◌, ◌+◌, OnOk, vec_len, vec_capacity};

use crate::lines::malformed;
use call_model::{Answer, Head, Ticket};
use case_tables::{CaseFault, Given};
use std::alloc::{AllocError, AllocFailed, Global};
use usage_ledger::{JoinFault, Keep, Ledgers, Tally};

/// Why a step with tallies failed.
#[derive(Clone, Copy)]
pub enum SeatFault {
    /// There is no such tally.
    NoTally,
    /// The tally has too few parts.
    NoParts,
    /// The word has no meaning here.
    NoWord,
    /// Two tallies were joined that must not be.
    NoFault,
    /// An allocation failed.
    Memory,
}

impl From<AllocError> for SeatFault {
    fn from(_e: AllocError) -> SeatFault {
        SeatFault::Memory
    }
}

impl<X: Drop> From<AllocFailed<X>> for SeatFault {
    fn from(_e: AllocFailed<X>) -> SeatFault {
        SeatFault::Memory
    }
}

impl SeatFault {
    /// Returns the fault of a case with this failure at a line.
    pub fn at(self, line: u64) -> CaseFault {
        match self {
            SeatFault::Memory => CaseFault::Memory,
            SeatFault::NoTally => malformed(line, "a tally that is there is wanted"),
            SeatFault::NoParts => malformed(line, "fewer tallies are wanted"),
            SeatFault::NoWord => malformed(line, "another word is wanted"),
            SeatFault::NoFault => malformed(line, "tallies that refuse room are wanted"),
        }
    }
}

/// What is seen of a tally.
#[derive(Clone, Copy)]
pub struct Seat<'a> {
    pub parts: u64,
    pub joined: bool,
    pub receipts: &'a [(Ticket, Answer)],
    pub calls: &'a [(Ticket, Head)],
}

/// Returns what is seen of the tally with this number.
pub fn seat_at<K: Keep, L: Ledgers>(tallies: &[Tally<K, L>], seat: usize) -> Option<Seat<'_>> {
    let tally = tallies.get(seat)?;
    Some(Seat {
        parts: tally.parts(),
        joined: tally.joined(),
        receipts: tally.kept(),
        calls: tally.calls(),
    })
}

/// Returns a row of tallies that starts with this one.
pub fn first_of<K: Keep, L: Ledgers>(
    alloc: Global,
    tally: Tally<K, L>,
) -> Result<Vec<Tally<K, L>>, AllocError> {
    let mut tallies = Vec::with_capacity(alloc, 1)?;
    tallies.push_reserved(tally);
    Ok(tallies)
}

/// Returns a new tally with a part of another one.
pub fn part_of<K: Keep, L: Ledgers>(
    tally: Option<&mut Tally<K, L>>,
) -> Result<Tally<K, L>, SeatFault> {
    let Some(tally) = tally else {
        return Err(SeatFault::NoTally);
    };
    if tally.parts() < 2 {
        return Err(SeatFault::NoParts);
    }
    Ok(tally.split())
}

/// Takes a tally out of the row. There is then room to put it back.
pub fn taken_out<K: Keep, L: Ledgers>(
    tallies: &mut Vec<Tally<K, L>>,
    seat: usize,
) -> Result<Tally<K, L>, SeatFault>
    ensures { OnOk result (vec_len tallies.new + 1 ≤ vec_capacity tallies.new) }
{
    if seat >= tallies.len() {
        return Err(SeatFault::NoTally);
    }
    Ok(tallies.remove(seat))
}

/// Appends a tally with a part of another one.
pub fn split_off<K: Keep, L: Ledgers>(
    tallies: &mut Vec<Tally<K, L>>,
    seat: usize,
) -> Result<(), SeatFault> {
    let part = part_of(tallies.get_mut(seat))?;
    match tallies.push(part) {
        Ok(()) => Ok(()),
        Err(_) => Err(SeatFault::Memory),
    }
}

/// Takes a tally and the next one out of the row. There is then room to put both back.
pub fn two_taken_out<K: Keep, L: Ledgers>(
    tallies: &mut Vec<Tally<K, L>>,
    seat: usize,
) -> Result<(Tally<K, L>, Tally<K, L>), SeatFault>
    ensures { OnOk result (vec_len tallies.new + 2 ≤ vec_capacity tallies.new) }
{
    if seat.saturating_add(1) >= tallies.len() {
        return Err(SeatFault::NoTally);
    }
    let one = tallies.remove(seat);
    Ok((one, tallies.remove(seat)))
}

/// Joins a tally and the next one, and moves them to the end.
pub fn join_next<K: Keep, L: Ledgers>(
    tallies: &mut Vec<Tally<K, L>>,
    seat: usize,
) -> Result<(), SeatFault> {
    let (one, other) = two_taken_out(tallies, seat)?;
    match one.join(other) {
        Ok(joined) => {
            tallies.push_reserved(joined);
            Ok(())
        }
        Err(JoinFault::OutOfMemory { .. }) => Err(SeatFault::Memory),
    }
}

/// Makes room for one receipt and one call; tries again if it is refused.
fn make_room<K: Keep, L: Ledgers>(tally: &mut Tally<K, L>) -> Result<(), SeatFault>
    ensures notes { OnOk result (0 < tally.new.spare_notes) }
    ensures calls { OnOk result (0 < tally.new.spare_calls) }
{
    if tally.room(1).is_ok() || tally.room(1).is_ok() {
        return Ok(());
    }
    Err(SeatFault::Memory)
}

/// Notes receipts.
pub fn note_receipts<K: Keep, L: Ledgers>(
    tally: &mut Tally<K, L>,
    receipts: &[(Ticket, Answer)],
) -> Result<(), SeatFault> {
    for receipt in receipts {
        make_room(tally)?;
        tally.note(receipt.0, receipt.1);
    }
    Ok(())
}

/// Notes calls.
pub fn note_calls<K: Keep, L: Ledgers>(
    tally: &mut Tally<K, L>,
    calls: &[(Ticket, Head)],
) -> Result<(), SeatFault> {
    for call in calls {
        make_room(tally)?;
        tally.made(call.0, call.1);
    }
    Ok(())
}

/// Adds the line of a ticket's answer.
pub fn push_answered(given: &mut Given, ticket: Ticket, answer: Answer) {
    given.push("  ");
    given.print(&ticket);
    given.push(": ");
    given.show(&answer);
    given.push("\n");
}

/// Adds receipts, except the first `but`.
pub fn push_receipts(given: &mut Given, receipts: &[(Ticket, Answer)], but: usize) {
    for receipt in receipts.iter().skip(but) {
        push_answered(given, receipt.0, receipt.1);
    }
}

/// Adds the head of a call.
fn push_head(given: &mut Given, ticket: Ticket, head: Head) {
    given.push("  ");
    given.print(&ticket);
    given.push(": ");
    given.show(&head.kind);
    given.push(" ");
    given.print(&head.number);
    if let Some(count) = head.count {
        given.push(" ");
        given.print(&count);
    }
    given.push("\n");
}

/// Adds what is seen of a tally.
pub fn push_seat(given: &mut Given, seat: Seat<'_>) {
    given.push(" ");
    given.print(&seat.parts);
    given.push(if seat.joined {
        " parts, joined, "
    } else {
        " parts, "
    });
    given.print(&seat.receipts.len());
    given.push(" receipts\n");
    for call in seat.calls {
        push_head(given, call.0, call.1);
    }
}

//! The steps of a case of ledgers.

ghost use Rattle.std.specs.Prelude.{◌≡◌, ◌^◌};

use crate::lines::{seat_in, split_word};
use crate::tallies::{
    SeatFault, first_of, join_next, note_calls, note_receipts, push_receipts, push_seat, seat_at,
    split_off, two_taken_out,
};
use call_model::{Answer, Head, Kind, Ticket};
use case_tables::{CaseFault, Given, value_of};
use std::alloc::{AllocError, Global};
use usage_ledger::{Counts, JoinFault, Keep, Ledgers, Start, Tally, Totals};

/// The number of parts in all.
const ALL_PARTS: u64 = 4_294_967_296;

/// More room than can be allocated.
const TOO_MUCH: usize = 18_446_744_073_709_551_615;

/// The receipts of one invocation: a runtime's Next waits for it, and a response answers it.
const RECEIPTS: [(&str, (Ticket, Answer)); 3] = [
    (
        "delivered",
        (
            0,
            Answer::Delivered {
                invoke: 1,
                deadline: 4000,
            },
        ),
    ),
    ("output", (1, Answer::Output { source: 2 })),
    ("accepted", (2, Answer::Accepted)),
];

/// The calls of that invocation: each with its ticket, and the count that it names.
const CALLS: [(&str, (Ticket, Kind, Option<u64>)); 3] = [
    ("next", (0, Kind::RuntimeNext, None)),
    ("invoke", (1, Kind::Invoke, None)),
    ("response", (2, Kind::Response, Some(1))),
];

/// A change to a tally.
#[derive(Clone, Copy)]
enum Change {
    Note,
    Make,
    Split,
    Join,
    Count,
    Audit,
}

/// The changes, by their words.
const CHANGES: [(&str, Change); 6] = [
    ("note", Change::Note),
    ("make", Change::Make),
    ("split", Change::Split),
    ("join", Change::Join),
    ("count", Change::Count),
    ("audit", Change::Audit),
];

/// A question about a tally.
#[derive(Clone, Copy)]
enum Question {
    Look,
    Room,
    Refuse,
}

/// The questions, by their words.
const QUESTIONS: [(&str, Question); 3] = [
    ("look", Question::Look),
    ("room", Question::Room),
    ("refuse", Question::Refuse),
];

/// The ledgers of an account: the totals that all tallies count in, and the tallies.
#[derive(Drop)]
pub struct Bench<K: Keep, L: Ledgers> {
    totals: Totals<L>,
    tallies: Vec<Tally<K, L>>,
}

/// Returns the call that a word names.
fn call_of(word: &str) -> Result<(Ticket, Head), SeatFault> {
    let Some((ticket, kind, count)) = value_of(&CALLS, word) else {
        return Err(SeatFault::NoWord);
    };
    let number = 1;
    Ok((
        ticket,
        Head {
            kind,
            number,
            count,
        },
    ))
}

/// Adds why two tallies were not joined.
fn push_fault<K: Keep, L: Ledgers>(fault: &JoinFault<Tally<K, L>>, given: &mut Given) {
    given.push(" ");
    given.print(fault);
    given.push(": ");
    given.show(fault);
    given.push("\n");
}

/// Joins a tally with the next one while allocations fail; both are then moved to the end.
fn push_refused<K: Keep, L: Ledgers>(
    tallies: &mut Vec<Tally<K, L>>,
    seat: usize,
    given: &mut Given,
) -> Result<(), SeatFault> {
    let (one, other) = two_taken_out(tallies, seat)?;
    let Err(fault) = one.join(other) else {
        return Err(SeatFault::NoFault);
    };
    push_fault(&fault, given);
    let JoinFault::OutOfMemory { one, other } = fault;
    tallies.push_reserved(one);
    tallies.push_reserved(other);
    Ok(())
}

/// Adds the look of a tally.
fn push_look<K: Keep, L: Ledgers>(
    tallies: &[Tally<K, L>],
    seat: usize,
    given: &mut Given,
) -> Result<(), SeatFault> {
    let Some(seen) = seat_at(tallies, seat) else {
        return Err(SeatFault::NoTally);
    };
    push_seat(given, seen);
    push_receipts(given, seen.receipts, 0);
    Ok(())
}

/// Returns the tally with this number.
fn tally_at<K: Keep, L: Ledgers>(
    tallies: &mut Vec<Tally<K, L>>,
    seat: usize,
) -> Result<&mut Tally<K, L>, SeatFault> {
    match tallies.get_mut(seat) {
        Some(tally) => Ok(tally),
        None => Err(SeatFault::NoTally),
    }
}

/// Notes the receipt that a word names.
fn note<K: Keep, L: Ledgers>(
    tallies: &mut Vec<Tally<K, L>>,
    seat: usize,
    word: &str,
) -> Result<(), SeatFault> {
    let tally = tally_at(tallies, seat)?;
    match value_of(&RECEIPTS, word) {
        Some(receipt) => note_receipts(tally, &[receipt]),
        None => Err(SeatFault::NoWord),
    }
}

/// Notes the call that a word names.
fn make<K: Keep, L: Ledgers>(
    tallies: &mut Vec<Tally<K, L>>,
    seat: usize,
    word: &str,
) -> Result<(), SeatFault> {
    let tally = tally_at(tallies, seat)?;
    let call = call_of(word)?;
    note_calls(tally, &[call])
}

/// Adds that a tally does not have this much room.
fn push_room<K: Keep, L: Ledgers>(
    tallies: &mut Vec<Tally<K, L>>,
    seat: usize,
    given: &mut Given,
) -> Result<(), SeatFault> {
    given.push(match tally_at(tallies, seat)?.room(TOO_MUCH) {
        Ok(()) => " made\n",
        Err(AllocError) => " refused\n",
    });
    Ok(())
}

impl<K: Keep, L: Ledgers> Bench<K, L> {
    /// Opens the ledgers with their first tally.
    pub fn new(alloc: Global, start: Start<K, L>) -> Result<Bench<K, L>, AllocError> {
        let tallies = first_of(alloc, start.tally)?;
        Ok(Bench {
            totals: start.totals,
            tallies,
        })
    }

    /// Counts three calls, one of which was admitted.
    fn count(&mut self, seat: usize) -> Result<(), SeatFault> {
        let rises = Counts {
            calls: 3,
            admitted: 1,
            throttled: 0,
            failed: 0,
        };
        self.totals.count(tally_at(&mut self.tallies, seat)?, rises);
        Ok(())
    }

    /// Compares the counts of the tally that has all parts with the totals.
    fn audit(&mut self, seat: usize) -> Result<(), SeatFault> {
        let tally = tally_at(&mut self.tallies, seat)?;
        if tally.parts() != ALL_PARTS {
            return Err(SeatFault::NoParts);
        }
        self.totals.audit(tally);
        Ok(())
    }

    /// Changes a tally; `word` is the change's argument.
    fn change(&mut self, change: Change, seat: usize, word: &str) -> Result<(), SeatFault> {
        match change {
            Change::Note => note(&mut self.tallies, seat, word),
            Change::Make => make(&mut self.tallies, seat, word),
            Change::Split => split_off(&mut self.tallies, seat),
            Change::Join => join_next(&mut self.tallies, seat),
            Change::Count => self.count(seat),
            Change::Audit => self.audit(seat),
        }
    }

    /// Adds the answer to a question about a tally.
    fn ask(&mut self, question: Question, seat: usize, given: &mut Given) -> Result<(), SeatFault> {
        match question {
            Question::Look => push_look(self.tallies.as_slice(), seat, given),
            Question::Room => push_room(&mut self.tallies, seat, given),
            Question::Refuse => push_refused(&mut self.tallies, seat, given),
        }
    }

    /// Performs the step in these words on the tally with this number; adds a line if it is a
    /// question.
    fn act(
        &mut self,
        line: &str,
        words: (&str, &str),
        seat: usize,
        given: &mut Given,
    ) -> Result<(), SeatFault> {
        if let Some(change) = value_of(&CHANGES, words.0) {
            return self.change(change, seat, words.1);
        }
        let Some(question) = value_of(&QUESTIONS, words.0) else {
            return Err(SeatFault::NoWord);
        };
        given.push(line);
        given.push(":");
        self.ask(question, seat, given)
    }

    /// Performs the step in a line.
    pub fn step(&mut self, number: u64, line: &str, given: &mut Given) -> Result<(), CaseFault> {
        let (word, rest) = split_word(line);
        let (seat, behind) = split_word(rest);
        let seat = seat_in(number, seat)?;
        match self.act(line, (word, behind), seat, given) {
            Ok(()) => Ok(()),
            Err(fault) => Err(fault.at(number)),
        }
    }
}

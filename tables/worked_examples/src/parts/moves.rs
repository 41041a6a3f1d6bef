//! The answers of an entry, in the order of their tickets.

use crate::parts::answers::{answer_of, say_answers};
use crate::parts::lines::{Calls, LineFault, Words, make_calls, number_if_given};
use crate::shown::tell;
use case_tables::{Case, CaseFault, Given};
use extension_set::Moves;

/// The answers so far.
#[derive(Drop)]
struct Entry {
    moves: Moves,
}

fn put(moves: &mut Moves, words: Words<'_>) -> Result<(), LineFault> {
    let mut words = words;
    let ticket = number_if_given(words.next())?;
    let answer = answer_of(words.rest())?;
    if moves.as_slice().len() >= 32 {
        return Err(LineFault::Malformed);
    }
    moves.give(ticket, answer);
    Ok(())
}

fn number(moves: &mut Moves, events: u64, given: &mut Given) -> Result<(), LineFault> {
    if events >= 1 << 63 {
        return Err(LineFault::Malformed);
    }
    tell(given, &moves.number(events));
    Ok(())
}

impl Calls for Entry {
    fn call(&mut self, line: &str, given: &mut Given) -> Result<(), LineFault> {
        let mut words = Words::of(line);
        match words.next() {
            "give" => put(&mut self.moves, words),
            "number" => number(&mut self.moves, words.last_number()?, given),
            "answers" => {
                say_answers(given, self.moves.as_slice());
                Ok(())
            }
            _ => Err(LineFault::Malformed),
        }
    }
}

/// Adds what the lines of a case about an entry's answers give.
///
/// | Line | What it gives |
/// |---|---|
/// | `give TICKET ANSWER` | nothing; a dash means no ticket or no answer |
/// | `number N` | the number of the last event, if N events came before the entry |
/// | `answers` | the answers |
pub fn give(case: &Case, given: &mut Given) -> Result<(), CaseFault> {
    let mut entry = Entry {
        moves: Moves::new(),
    };
    make_calls(case, &mut entry, given)
}

//! What a case does: its parts, except a crowd, and then the settlement.

use crate::accounts::bells::Bells;
use crate::accounts::forging::FORGERIES;
use crate::accounts::places::{Question, Said, Taken};
use crate::accounts::stand::{Stand, Turns};
use crate::accounts::texts::{push_all_rings, push_ending, push_look, push_rings, push_said};
use crate::lines::{malformed, number_behind, number_of, seat_in, split_word};
use crate::tallies::{SeatFault, push_receipts, push_seat};
use account_lock::SettleFault;
use case_tables::{Case, CaseFault, Given, Part, value_of};
use std::alloc::Global;

/// Adds the outcome of a call: its ticket, or that the journal is full.
fn push_taken(given: &mut Given, line: u64, taken: Taken) -> Result<(), CaseFault> {
    match taken {
        Taken::At(ticket) => given.print(&ticket),
        Taken::Full => given.push("the journal is full, and the bell came back"),
        Taken::BellGone => given.push("the journal is full, and the bell is gone"),
        Taken::NoCall => return Err(malformed(line, "a call is wanted")),
        Taken::NoMemory => return Err(CaseFault::Memory),
    }
    Ok(())
}

/// Returns how many receipts the tally with this number keeps.
fn receipts_of<P: Stand>(stand: &P, seat: usize) -> usize {
    match stand.seat(seat) {
        Some(seen) => seen.receipts.len(),
        None => 0,
    }
}

/// Adds the bells that rang, and a tally's receipts after the first `before`.
fn push_heard<P: Stand>(stand: &P, bells: &Bells, seat: usize, before: usize, given: &mut Given) {
    push_rings(given, bells);
    if let Some(seen) = stand.seat(seat) {
        push_receipts(given, seen.receipts, before);
    }
}

/// Submits the call of a line with a tally; adds its ticket, the bells that rang, and the answers
/// whose receipts the tally keeps.
fn one_call<P: Stand>(
    stand: &mut P,
    bells: &mut Bells,
    seat: usize,
    line: u64,
    text: &str,
    given: &mut Given,
) -> Result<(), CaseFault> {
    let before = receipts_of(stand, seat);
    bells.begin_step();
    let bell = bells.make()?;
    match stand.take(seat, text.as_bytes(), bell) {
        Ok(taken) => push_taken(given, line, taken)?,
        Err(fault) => return Err(fault.at(line)),
    }
    push_heard(stand, bells, seat, before, given);
    Ok(())
}

/// Creates the tally that a part names, unless it is there, and returns its number.
fn seat_of<P: Stand>(stand: &mut P, part: &Part) -> Result<usize, CaseFault> {
    let seat = seat_in(part.line(), part.arguments())?;
    match stand.make_seat(seat) {
        Ok(()) => Ok(seat),
        Err(fault) => Err(fault.at(part.line())),
    }
}

/// Submits the calls of a part with a tally.
fn all_calls<P: Stand>(
    stand: &mut P,
    bells: &mut Bells,
    part: &Part,
    given: &mut Given,
) -> Result<(), CaseFault> {
    let seat = seat_of(stand, part)?;
    let mut line = part.line();
    for text in part.lines().split('\n') {
        line = line.saturating_add(1);
        one_call(stand, bells, seat, line, text, given)?;
    }
    Ok(())
}

/// Returns how many entries an account has.
fn entries_of<P: Stand>(stand: &mut P) -> u64 {
    match stand.ask(Question::Stats) {
        Said::Stats(stats) => stats.entries,
        _ => 0,
    }
}

/// Adds each ticket's answer, and that of the ticket past the end.
fn push_looks<P: Stand>(stand: &mut P, given: &mut Given) {
    given.push("\n");
    for ticket in 0..entries_of(stand).saturating_add(1) {
        if let Said::Look(look) = stand.ask(Question::Look(ticket)) {
            push_look(given, ticket, look);
        }
    }
}

/// The questions without a number.
const PLAIN: [(&str, Question); 4] = [
    ("life", Question::Life),
    ("stats", Question::Stats),
    ("environments", Question::Environments),
    ("opening", Question::Opening),
];

/// Returns the question for a word and a number.
fn numbered_question(word: &str, number: u64) -> Option<Question> {
    match word {
        "look" => Some(Question::Look(number)),
        "due" => Some(Question::Due(number)),
        "render" => Some(Question::Render(number)),
        "history" => Some(Question::History(number)),
        "reservation" if number < 1000 => Some(Question::Reservation(number as u32)),
        _ => None,
    }
}

/// Reads the question of a word and a number.
fn question_of(line: u64, word: &str, number: &str) -> Result<Question, CaseFault> {
    if let Some(question) = value_of(&PLAIN, word) {
        return Ok(question);
    }
    match numbered_question(word, number_of(line, number)?) {
        Some(question) => Ok(question),
        None => Err(malformed(line, "a question is wanted")),
    }
}

/// Adds an account's answer to the question in a line.
fn push_answer<P: Stand>(
    stand: &mut P,
    line: u64,
    word: &str,
    number: &str,
    given: &mut Given,
) -> Result<(), CaseFault> {
    let question = question_of(line, word, number)?;
    push_said(given, &stand.ask(question));
    Ok(())
}

/// Adds what is seen of the tally with this number.
fn push_tally<P: Stand>(
    stand: &P,
    line: u64,
    number: &str,
    given: &mut Given,
) -> Result<(), CaseFault> {
    let seat = number_of(line, number)? as usize;
    match stand.seat(seat) {
        Some(seen) => push_seat(given, seen),
        None => return Err(malformed(line, "a tally that is there is wanted")),
    }
    Ok(())
}

/// Asks the question in a line, and adds the line and the answer.
fn one_question<P: Stand>(
    stand: &mut P,
    bells: &Bells,
    line: u64,
    text: &str,
    given: &mut Given,
) -> Result<(), CaseFault> {
    let (word, number) = split_word(text);
    given.push(text);
    given.push(":");
    match word {
        "looks" => push_looks(stand, given),
        "bells" => push_all_rings(given, bells),
        "tally" => return push_tally(stand, line, number, given),
        _ => return push_answer(stand, line, word, number, given),
    }
    Ok(())
}

/// Asks the questions in a part's lines.
fn all_questions<P: Stand>(
    stand: &mut P,
    bells: &Bells,
    part: &Part,
    given: &mut Given,
) -> Result<(), CaseFault> {
    let mut line = part.line();
    for text in part.lines().split('\n') {
        line = line.saturating_add(1);
        one_question(stand, bells, line, text, given)?;
    }
    Ok(())
}

/// Reads the calls that the four threads of a crowd make.
pub fn turns_of(part: &Part) -> Result<Turns<'_>, CaseFault> {
    Ok(Turns {
        count: number_behind(part)?,
        lines: part.lines(),
        first: part.line().saturating_add(1),
    })
}

/// Forges what tally 1 keeps, as a part says.
fn forge<P: Stand>(stand: &mut P, part: &Part) -> Result<(), SeatFault> {
    match value_of(&FORGERIES, part.arguments()) {
        Some(forgery) => stand.forge(forgery),
        None => Err(SeatFault::NoWord),
    }
}

/// What a part does.
#[derive(Clone, Copy)]
pub enum Deed {
    /// It says how to open the account.
    Opens,
    Calls,
    CallsQuietly,
    Asks,
    Crowd,
    Joins,
    HoldsBack,
    Forges,
}

/// The deeds, by the words of their parts.
const DEEDS: [(&str, Deed); 9] = [
    ("open", Deed::Opens),
    ("keep", Deed::Opens),
    ("calls", Deed::Calls),
    ("quietly", Deed::CallsQuietly),
    ("ask", Deed::Asks),
    ("crowd", Deed::Crowd),
    ("join", Deed::Joins),
    ("hold-back", Deed::HoldsBack),
    ("forge", Deed::Forges),
];

/// Returns what a part does.
pub fn deed_of(part: &Part) -> Result<Deed, CaseFault> {
    match value_of(&DEEDS, part.word()) {
        Some(deed) => Ok(deed),
        None => Err(CaseFault::Unknown { line: part.line() }),
    }
}

/// Changes the tallies as a part says.
fn change_tallies<P: Stand>(stand: &mut P, deed: Deed, part: &Part) -> Result<(), CaseFault> {
    let changed = match deed {
        Deed::Joins => stand.join(),
        Deed::HoldsBack => stand.hold_back(),
        Deed::Forges => forge(stand, part),
        _ => Ok(()),
    };
    match changed {
        Ok(()) => Ok(()),
        Err(fault) => Err(fault.at(part.line())),
    }
}

/// Submits the calls of a part, and adds nothing.
fn quiet_calls<P: Stand>(
    alloc: Global,
    stand: &mut P,
    bells: &mut Bells,
    part: &Part,
) -> Result<(), CaseFault> {
    let mut unseen = Given::new(alloc);
    all_calls(stand, bells, part, &mut unseen)?;
    unseen.end()
}

/// Performs a part, unless it is a crowd.
pub fn one_part<P: Stand>(
    stand: &mut P,
    bells: &mut Bells,
    deed: Deed,
    part: &Part,
    given: &mut Given,
) -> Result<(), CaseFault> {
    match deed {
        Deed::Calls => all_calls(stand, bells, part, given),
        Deed::CallsQuietly => quiet_calls(given.alloc(), stand, bells, part),
        Deed::Asks => all_questions(stand, bells, part, given),
        _ => change_tallies(stand, deed, part),
    }
}

/// Settles the account after the parts of a case.
pub fn end_case<P: Stand>(case: &Case, stand: P, given: &mut Given) -> Result<(), CaseFault> {
    let ending = stand.settle();
    if matches!(ending.settled, Err(SettleFault::OutOfMemory)) {
        return Err(CaseFault::Memory);
    }
    push_ending(given, ending, case.part("crowd").is_some());
    Ok(())
}

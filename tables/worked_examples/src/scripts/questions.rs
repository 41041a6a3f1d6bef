//! The questions that a book can be asked.

use arn_ids::FnNo;
use call_model::Ticket;
use case_tables::value_of;

/// A question.
///
/// | Line | What the answer says |
/// |---|---|
/// | `entries` | for each ticket, and the one past the end: its moment, place, request count and answer |
/// | `opening` | the history's text before its first entry |
/// | `history T` | the text of the entry with this ticket |
/// | `render T` | the reply to this ticket: its status, its headers, and behind `=` its body |
/// | `stats` | the counts of the account |
/// | `due M` | whether an environment is due at this moment |
/// | `life` | how far the service's shutdown has come |
/// | `reservation F` | the reservation in force of the function with this number |
/// | `salt`, `config` | the salt; the environments, the functions and the account's limit |
///
/// If there is nothing to show, the answer has `-`.
#[derive(Clone, Copy)]
pub enum Question {
    Entries,
    Opening,
    History(Ticket),
    Render(Ticket),
    Stats,
    Due(u64),
    Life,
    Reservation(FnNo),
    Salt,
    Config,
}

/// The questions that consist of one word.
const PLAIN: [(&str, Question); 6] = [
    ("entries", Question::Entries),
    ("opening", Question::Opening),
    ("stats", Question::Stats),
    ("life", Question::Life),
    ("salt", Question::Salt),
    ("config", Question::Config),
];

/// Returns the question for a word and a number.
fn numbered_question(word: &str, number: u64) -> Option<Question> {
    match word {
        "history" => Some(Question::History(number)),
        "render" => Some(Question::Render(number)),
        "due" => Some(Question::Due(number)),
        "reservation" => Some(Question::Reservation(FnNo::try_from(number).ok()?)),
        _ => None,
    }
}

/// Reads the question in a line.
pub fn question_of(line: &str) -> Option<Question> {
    match line.split_once(' ') {
        Some((word, number)) => numbered_question(word, number.parse::<u64>().ok()?),
        None => value_of(&PLAIN, line),
    }
}

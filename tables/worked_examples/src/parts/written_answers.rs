//! Answers, by their words.

use crate::answers::numbered_answer;
use crate::parts::lines::{LineFault, Words};
use call_model::{Answer, Reason, Rejection, Throttle};
use case_tables::value_of;

/// The answers that consist of one word.
const PLAIN: [(&str, Answer); 21] = [
    ("accepted", Answer::Accepted),
    ("done", Answer::Done),
    ("timed-out", Answer::TimedOut),
    ("init-timed-out", Answer::InitTimedOut),
    ("output-too-large", Answer::OutputTooLarge),
    ("throttled-function", Answer::Throttled(Throttle::Function)),
    ("throttled-account", Answer::Throttled(Throttle::Account)),
    (
        "throttled-environments",
        Answer::Throttled(Throttle::Environments),
    ),
    ("stopped", Answer::Stopped),
    ("withdrawn", Answer::Withdrawn),
    ("unreserved", Answer::Unreserved),
    ("state", Answer::Refused(Rejection::State)),
    ("replaced", Answer::Refused(Rejection::Replaced)),
    ("bad-id", Answer::Refused(Rejection::BadId)),
    ("unknown", Answer::Refused(Rejection::Unknown)),
    ("too-large", Answer::Refused(Rejection::TooLarge)),
    ("container", Answer::Refused(Rejection::Container)),
    ("name-in-use", Answer::Refused(Rejection::NameInUse)),
    ("too-many", Answer::Refused(Rejection::TooMany)),
    ("not-idle", Answer::Refused(Rejection::NotIdle)),
    (
        "bad-reservation",
        Answer::Refused(Rejection::BadReservation),
    ),
];

fn plain(word: &str) -> Result<Answer, LineFault> {
    match value_of(&PLAIN, word) {
        Some(answer) => Ok(answer),
        None => Err(LineFault::Malformed),
    }
}

/// Reads a SHUTDOWN event: its moment and its number follow.
fn ending(reason: Reason, words: Words<'_>) -> Result<Answer, LineFault> {
    let mut words = words;
    Ok(Answer::Ending {
        reason,
        until: words.number()?,
        event: words.last_number()?,
    })
}

/// Reads a delivery: the ticket of the Invoke and its deadline follow.
fn delivered(words: Words<'_>) -> Result<Answer, LineFault> {
    let mut words = words;
    Ok(Answer::Delivered {
        invoke: words.number()?,
        deadline: words.last_number()?,
    })
}

/// Reads an INVOKE event: the ticket of the Invoke, its deadline and the event's number follow.
fn told(words: Words<'_>) -> Result<Answer, LineFault> {
    let mut words = words;
    Ok(Answer::Told {
        invoke: words.number()?,
        deadline: words.number()?,
        event: words.last_number()?,
    })
}

/// Returns the answer for a word and one number.
fn numbered(word: &str, number: u64) -> Result<Answer, LineFault> {
    match numbered_answer(word, number) {
        Some(answer) => Ok(answer),
        None => Err(LineFault::Malformed),
    }
}

/// The reasons for an end, by their words.
const ENDS: [(&str, Reason); 3] = [
    ("ending-timeout", Reason::Timeout),
    ("ending-failure", Reason::Failure),
    ("ending-spindown", Reason::Spindown),
];

/// Reads the answer of a word that is followed by numbers.
fn longer(word: &str, words: Words<'_>) -> Result<Answer, LineFault> {
    if let Some(reason) = value_of(&ENDS, word) {
        return ending(reason, words);
    }
    match word {
        "delivered" => delivered(words),
        "told" => told(words),
        _ => numbered(word, words.last_number()?),
    }
}

/// Reads an answer.
pub fn answer_of(words: Words<'_>) -> Result<Answer, LineFault> {
    let mut words = words;
    let word = words.next();
    match words.rest() {
        "" => plain(word),
        _ => longer(word, words),
    }
}

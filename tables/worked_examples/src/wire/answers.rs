//! Answers, by their words.

use crate::answers::{REASONS, numbered_answer};
use call_model::{Answer, Rejection, Throttle};
use case_tables::{CaseFault, Part, value_of};

/// The answers without a number.
const PLAIN: [(&str, Answer); 21] = [
    ("accepted", Answer::Accepted),
    ("done", Answer::Done),
    ("timeout", Answer::TimedOut),
    ("init-timeout", Answer::InitTimedOut),
    ("too-large-output", Answer::OutputTooLarge),
    ("stopped", Answer::Stopped),
    ("withdrawn", Answer::Withdrawn),
    ("unreserved", Answer::Unreserved),
    ("throttled Function", Answer::Throttled(Throttle::Function)),
    ("throttled Account", Answer::Throttled(Throttle::Account)),
    (
        "throttled Environments",
        Answer::Throttled(Throttle::Environments),
    ),
    ("refused State", Answer::Refused(Rejection::State)),
    ("refused Replaced", Answer::Refused(Rejection::Replaced)),
    ("refused BadId", Answer::Refused(Rejection::BadId)),
    ("refused Unknown", Answer::Refused(Rejection::Unknown)),
    ("refused TooLarge", Answer::Refused(Rejection::TooLarge)),
    ("refused Container", Answer::Refused(Rejection::Container)),
    ("refused NameInUse", Answer::Refused(Rejection::NameInUse)),
    ("refused TooMany", Answer::Refused(Rejection::TooMany)),
    ("refused NotIdle", Answer::Refused(Rejection::NotIdle)),
    (
        "refused BadReservation",
        Answer::Refused(Rejection::BadReservation),
    ),
];

fn number_in(text: &str) -> Option<u64> {
    text.parse::<u64>().ok()
}

/// Reads a delivery: the Invoke's ticket and the deadline.
fn delivery(rest: &str) -> Option<Answer> {
    let (invoke, deadline) = rest.split_once(' ')?;
    Some(Answer::Delivered {
        invoke: number_in(invoke)?,
        deadline: number_in(deadline)?,
    })
}

/// Reads an INVOKE event: the Invoke's ticket, the event's number and the deadline.
fn told(rest: &str) -> Option<Answer> {
    let (invoke, rest) = rest.split_once(' ')?;
    let (event, deadline) = rest.split_once(' ')?;
    Some(Answer::Told {
        invoke: number_in(invoke)?,
        deadline: number_in(deadline)?,
        event: number_in(event)?,
    })
}

/// Reads a SHUTDOWN event: its number, the reason, and the moment by which the environment ends.
fn ending(rest: &str) -> Option<Answer> {
    let (event, rest) = rest.split_once(' ')?;
    let (reason, until) = rest.split_once(' ')?;
    Some(Answer::Ending {
        reason: value_of(&REASONS, reason)?,
        until: number_in(until)?,
        event: number_in(event)?,
    })
}

/// Reads the answer of a word and its arguments.
fn longer_answer(word: &str, rest: &str) -> Option<Answer> {
    match word {
        "deliver" => delivery(rest),
        "tell" => told(rest),
        "shutdown" => ending(rest),
        _ => numbered_answer(word, number_in(rest)?),
    }
}

fn answer_in(text: &str) -> Option<Answer> {
    match value_of(&PLAIN, text) {
        Some(answer) => Some(answer),
        None => {
            let (word, rest) = text.split_once(' ')?;
            longer_answer(word, rest)
        }
    }
}

/// Reads the answer in a part.
///
/// | Words | Answer |
/// |---|---|
/// | `deliver T D` | the Invoke with ticket T is delivered, with deadline D |
/// | `tell T N D` | event N announces the Invoke with ticket T and its deadline D |
/// | `shutdown N R U` | event N announces the end by U; R is `TIMEOUT`, `FAILURE` or `SPINDOWN` |
/// | `registered N` | the extension is registered as number N |
/// | `output T`, `error T` | the report with ticket T contained an output or an error |
/// | `throttled K`, `refused K` | K is the name of the reason |
/// | `reserved N`, `unreserved` | a reservation is set or removed |
/// | `accepted`, `done`, `timeout`, `init-timeout`, `too-large-output`, `stopped`, `withdrawn` | |
pub fn answer_of(part: &Part) -> Result<Answer, CaseFault> {
    match answer_in(part.arguments()) {
        Some(answer) => Ok(answer),
        None => Err(part.malformed("an answer is wanted")),
    }
}

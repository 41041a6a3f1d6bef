//! Answers, as the lines of cases write them.

use crate::parts::lines::LineFault;
use crate::shown::tell;
use call_model::{Answer, Reason, Rejection, Ticket};
use case_tables::{Given, value_of};

/// The answers that a table can name. Events are not numbered yet.
const ANSWERS: [(&str, Answer); 7] = [
    ("accepted", Answer::Accepted),
    ("state", Answer::Refused(Rejection::State)),
    ("container", Answer::Refused(Rejection::Container)),
    (
        "told",
        Answer::Told {
            invoke: 30,
            deadline: 4000,
            event: 0,
        },
    ),
    (
        "timeout",
        Answer::Ending {
            reason: Reason::Timeout,
            until: 2000,
            event: 0,
        },
    ),
    (
        "failure",
        Answer::Ending {
            reason: Reason::Failure,
            until: 2000,
            event: 0,
        },
    ),
    (
        "spindown",
        Answer::Ending {
            reason: Reason::Spindown,
            until: 2000,
            event: 0,
        },
    ),
];

/// Returns the answer that a word names; a dash is `None`.
pub fn answer_of(word: &str) -> Result<Option<Answer>, LineFault> {
    if word == "-" {
        return Ok(None);
    }
    match value_of(&ANSWERS, word) {
        Some(answer) => Ok(Some(answer)),
        None => Err(LineFault::Malformed),
    }
}

/// Adds a line for each answer, with the ticket it is for.
pub fn say_answers(given: &mut Given, answers: &[(Ticket, Answer)]) {
    for (ticket, answer) in answers {
        given.push("  ");
        given.print(ticket);
        given.push(" ");
        tell(given, answer);
    }
}

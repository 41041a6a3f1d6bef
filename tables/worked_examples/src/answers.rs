//! Answers, by words that several tables share.

use call_model::{Answer, Reason};

/// The reasons for the end of an environment, by their words.
pub const REASONS: [(&str, Reason); 3] = [
    ("TIMEOUT", Reason::Timeout),
    ("FAILURE", Reason::Failure),
    ("SPINDOWN", Reason::Spindown),
];

/// Returns the answer for a word and one number.
///
/// | Words | Answer |
/// |---|---|
/// | `registered N` | the extension is registered as number N |
/// | `output T`, `error T` | the report with ticket T contained an output or an error |
/// | `reserved N` | the reservation is set to N |
pub fn numbered_answer(word: &str, number: u64) -> Option<Answer> {
    match word {
        "registered" => Some(Answer::Registered { count: number }),
        "output" => Some(Answer::Output { source: number }),
        "error" => Some(Answer::Error { source: number }),
        "reserved" => Some(Answer::Reserved {
            count: u32::try_from(number).ok()?,
        }),
        _ => None,
    }
}

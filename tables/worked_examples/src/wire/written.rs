//! What is written for the arguments of calls. The word of a part names a call; each line of the
//! part is the JSON object of its arguments, and gives what is written for them.

use crate::wire::arguments::Arguments;
use crate::wire::bodies::push_body;
use crate::wire::headers::push_headers;
use crate::wire::refusals::push_refusal;
use case_tables::{Case, CaseFault, Given, Part};

/// What is written.
#[derive(Clone, Copy)]
pub enum Written {
    /// The body of a reply, on one line.
    Bodies,
    /// The headers of a reply, one per line.
    Headers,
    /// A whole reply that reports a refusal.
    Refusals,
}

/// Adds what is written for the arguments of a line.
fn push_written(
    written: Written,
    word: &str,
    text: &str,
    line: u64,
    given: &mut Given,
) -> Result<(), CaseFault> {
    let arguments = Arguments::read(given.alloc(), text, line)?;
    match written {
        Written::Bodies => push_body(word, &arguments, given),
        Written::Headers => push_headers(word, &arguments, given),
        Written::Refusals => push_refusal(word, &arguments, given),
    }
}

/// Adds what is written for each line of a part.
fn push_lines(written: Written, part: &Part, given: &mut Given) -> Result<(), CaseFault> {
    let mut line = part.line();
    for text in part.lines().split('\n') {
        line = line.saturating_add(1);
        push_written(written, part.word(), text, line, given)?;
    }
    Ok(())
}

/// Adds what a case gives.
pub fn give(written: Written, case: &Case, given: &mut Given) -> Result<(), CaseFault> {
    for part in case.parts() {
        push_lines(written, part, given)?;
    }
    Ok(())
}

//! Words and numbers in the lines of cases.

use case_tables::{CaseFault, Part};

/// Returns the fault of a line that does not contain what it must.
pub fn malformed(line: u64, what: &'static str) -> CaseFault {
    CaseFault::Malformed { line, what }
}

/// Splits a text into its first word and the rest.
pub fn split_word(text: &str) -> (&str, &str) {
    match text.split_once(' ') {
        Some(words) => words,
        None => (text, ""),
    }
}

/// Reads a number from a line's text.
pub fn number_of(line: u64, text: &str) -> Result<u64, CaseFault> {
    match text.parse::<u64>() {
        Ok(number) => Ok(number),
        Err(_) => Err(malformed(line, "a number is wanted")),
    }
}

/// Reads the number after the word of a part.
pub fn number_behind(part: &Part) -> Result<u64, CaseFault> {
    number_of(part.line(), part.arguments())
}

/// Reads the number of a tally from a line's text; 0 if the text is empty.
pub fn seat_in(line: u64, text: &str) -> Result<usize, CaseFault> {
    if text.is_empty() {
        return Ok(0);
    }
    match number_of(line, text)? {
        seat if seat <= 9 => Ok(seat as usize),
        _ => Err(malformed(line, "a tally from 0 to 9 is wanted")),
    }
}

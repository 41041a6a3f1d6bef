//! The text of a history, from a book that took a script.

use crate::scripts::taking::{Unopened, open_book, take};
use crate::shown::taken;
use account_book::Book;
use call_model::Ticket;
use std::alloc::{AllocError, Global};

/// Returns a line without its carriage return.
fn cut(line: &[u8]) -> &[u8] {
    line.strip_suffix(b"\r").unwrap_or(line)
}

/// Gives a book the lines of a script.
fn take_lines(
    alloc: Global,
    book: &mut Book,
    reserves: bool,
    lines: &[u8],
) -> Result<(), AllocError> {
    for line in lines.split(|b| *b == b'\n') {
        take(alloc, book, reserves, cut(line))?;
    }
    Ok(())
}

/// Adds the text of the entry with this ticket.
fn push_entry(text: &mut Vec<u8>, book: &Book, ticket: Ticket) -> Result<(), AllocError> {
    match book.history(ticket) {
        Ok(Some(draft)) => text.extend_from_slice(taken(draft)?.as_slice()),
        Ok(None) => Ok(()),
        Err(fault) => Err(fault),
    }
}

/// Returns the text of a book's history.
fn history_text(book: &Book) -> Result<Vec<u8>, AllocError> {
    let mut text = book.opening()?;
    for ticket in 0..book.len() {
        push_entry(&mut text, book, ticket)?;
    }
    Ok(text)
}

/// Returns the text of the history of a book that takes these lines.
fn history_of(
    alloc: Global,
    book: &mut Book,
    reserves: bool,
    lines: &[u8],
) -> Result<Option<Vec<u8>>, AllocError> {
    take_lines(alloc, book, reserves, lines)?;
    Ok(Some(history_text(book)?))
}

/// Returns the text of the history of the book that the first line opens and the others fill;
/// `None` if it opens none.
fn opened_history(
    alloc: Global,
    config: &[u8],
    reserves: bool,
    lines: &[u8],
) -> Result<Option<Vec<u8>>, AllocError> {
    match open_book(alloc, cut(config)) {
        Ok(mut book) => history_of(alloc, &mut book, reserves, lines),
        Err(Unopened::Memory) => Err(AllocError),
        Err(_) => Ok(None),
    }
}

/// Splits a text after its first line feed.
fn cut_line(text: &[u8]) -> (&[u8], &[u8]) {
    for place in 0..text.len() {
        if text[place] == b'\n' {
            return (&text[..place], &text[place + 1..]);
        }
    }
    (text, b"")
}

/// Returns the text of the history that a script leads to; `None` if the script does not end well.
pub fn history_behind(alloc: Global, script: &[u8]) -> Result<Option<Vec<u8>>, AllocError> {
    let (first, behind) = cut_line(script);
    if cut(first) == b"form 2".as_slice() {
        let (config, lines) = cut_line(behind);
        return opened_history(alloc, config, true, lines);
    }
    opened_history(alloc, first, false, behind)
}

/// Whether a history's text shows these answers: they are what follows `# ` in its lines.
pub fn shows(text: &[u8], answers: &[u8]) -> bool {
    let mut rest = answers;
    for line in text.split_inclusive(|b| *b == b'\n') {
        if let Some(answer) = line.strip_prefix(b"# ") {
            match rest.strip_prefix(answer) {
                Some(behind) => rest = behind,
                None => return false,
            }
        }
    }
    rest.is_empty()
}

/// The line that is written if the journal is full; it belongs to no entry.
const FULL: &[u8] = b"refused JournalFull\n";

/// Adds the lines of the answers that belong to entries.
pub fn push_entries_answers(kept: &mut Vec<u8>, answers: &[u8]) -> Result<(), AllocError> {
    for line in answers.split_inclusive(|b| *b == b'\n') {
        if line != FULL {
            kept.extend_from_slice(line)?;
        }
    }
    Ok(())
}

//! Books: each takes the lines of a script, with questions between them.

use crate::scripts::questions::question_of;
use crate::scripts::readings::push_reading;
use crate::scripts::taking::{Taken, Unopened, is_early, open_book, take};
use account_book::Book;
use case_tables::{Case, CaseFault, Given, Part};
use std::alloc::{AllocError, Global};

/// Lines of a file, and the number of the first.
#[derive(Clone, Copy)]
struct Lines<'a> {
    text: &'a str,
    first: u64,
}

/// Returns the lines of a part.
fn lines_of(part: &Part) -> Lines<'_> {
    Lines {
        text: part.text(),
        first: part.line().saturating_add(1),
    }
}

/// Adds what a book did with a call that it did not take. Returns whether there was a call.
fn push_taken(given: &mut Given, taken: Taken) -> bool {
    match taken {
        Taken::NoCall => return false,
        Taken::Taken => {}
        Taken::Full => given.push("refused JournalFull\n"),
        Taken::Otherwise => given.push("full, and yet taken, or the other way round\n"),
    }
    true
}

/// Gives a book the call of a line, and again if an allocation fails: the book is then unchanged.
fn take_in_the_end(alloc: Global, book: &mut Book, line: &str) -> Result<Taken, AllocError> {
    match take(alloc, book, true, line.as_bytes()) {
        Ok(taken) => Ok(taken),
        Err(AllocError) => take(alloc, book, true, line.as_bytes()),
    }
}

/// Adds a book's answer to the question in a line. Returns whether it is a question.
fn ask(book: &Book, line: &str, given: &mut Given) -> bool {
    match question_of(line) {
        Some(question) => {
            push_reading(book, question, given);
            true
        }
        None => false,
    }
}

/// Adds whether the call of a line would come too early. Returns whether it is a call.
fn hold(book: &Book, line: &str, given: &mut Given) -> bool {
    match is_early(given.alloc(), book, line.as_bytes()) {
        Ok(Some(true)) => given.push("early\n"),
        Ok(Some(false)) => given.push("in time\n"),
        Ok(None) => return false,
        Err(_) => given.cut(),
    }
    true
}

/// Gives a book a line of a part with this name. Returns whether the line fits the part.
fn follow_line(
    book: &mut Book,
    word: &str,
    line: &str,
    given: &mut Given,
) -> Result<bool, AllocError> {
    match word {
        "ask" => Ok(ask(book, line, given)),
        "would" => Ok(hold(book, line, given)),
        _ => {
            let taken = take_in_the_end(given.alloc(), book, line)?;
            Ok(push_taken(given, taken))
        }
    }
}

/// Gives a book the lines of a part with this name.
fn follow(
    book: &mut Book,
    word: &str,
    lines: Lines<'_>,
    given: &mut Given,
) -> Result<(), CaseFault> {
    let mut number = lines.first;
    for line in lines.text.lines() {
        if !follow_line(book, word, line, given)? {
            return Err(CaseFault::Malformed {
                line: number,
                what: "a call or a question is wanted",
            });
        }
        number = number.saturating_add(1);
    }
    Ok(())
}

/// Gives a book first the lines of a script, and then those of parts.
fn follow_all(
    book: &mut Book,
    lines: Lines<'_>,
    parts: &[Part],
    given: &mut Given,
) -> Result<(), CaseFault> {
    follow(book, "script", lines, given)?;
    for part in parts {
        if !["script", "ask", "would"].contains(&part.word()) {
            return Err(CaseFault::Unknown { line: part.line() });
        }
        follow(book, part.word(), lines_of(part), given)?;
    }
    Ok(())
}

/// Adds why no book was opened; nothing may follow such a configuration.
fn push_unopened(
    given: &mut Given,
    why: Unopened,
    behind: Lines<'_>,
    parts: &[Part],
) -> Result<(), CaseFault> {
    if matches!(why, Unopened::Memory) {
        return Err(CaseFault::Memory);
    }
    if !behind.text.is_empty() || !parts.is_empty() {
        return Err(CaseFault::Malformed {
            line: behind.first.saturating_sub(1),
            what: "a book with more behind it does not open",
        });
    }
    given.push("not opened: ");
    given.show(&why);
    given.push("\n");
    Ok(())
}

/// Returns the first part of a case, which must be a script, and the parts after it.
fn first_of(case: &Case) -> Result<(&Part, &[Part]), CaseFault> {
    match case.parts().split_first() {
        Some((part, parts)) if part.word() == "script" => Ok((part, parts)),
        _ => Err(CaseFault::Missing { part: "script" }),
    }
}

/// Adds what a book that takes a script says. The first line of a case is the configuration, in a
/// part `script`. Each further line of such a part is a call in form 2, each line of a part `ask`
/// is a question, and each line of a part `would` is a call that is asked whether it would come too
/// early. A case gives the book's answers to its questions, and a line for each call that it
/// refuses.
pub fn give(case: &Case, given: &mut Given) -> Result<(), CaseFault> {
    let (part, parts) = first_of(case)?;
    let text = part.text();
    let (config, behind) = text.split_once('\n').unwrap_or((text, ""));
    let lines = Lines {
        text: behind,
        first: part.line().saturating_add(2),
    };
    match open_book(given.alloc(), config.as_bytes()) {
        Ok(mut book) => follow_all(&mut book, lines, parts, given),
        Err(why) => push_unopened(given, why, lines, parts),
    }
}

//! A book's answers to questions, as lines.

use crate::scripts::questions::Question;
use crate::scripts::texts::push_bytes;
use crate::shown::{push_headers, push_line, taken, tell};
use account_book::Book;
use arn_ids::FnNo;
use call_model::{Answer, Ticket};
use case_tables::Given;
use lambda_wire::Reply;
use script::Draft;

/// Adds a number and the text after it, or `-` if there is no number.
fn push_number(given: &mut Given, number: Option<u64>, behind: &str) {
    match number {
        Some(number) => given.print(&number),
        None => given.push("-"),
    }
    given.push(behind);
}

/// Adds the text of an entry as lines, unless an allocation fails.
fn push_draft(given: &mut Given, draft: Draft) {
    match taken(draft) {
        Ok(text) => push_bytes(given, text.as_slice()),
        Err(_) => given.cut(),
    }
}

/// Adds the history text of the entry with this ticket, or `-` if there is none.
fn push_history(book: &Book, ticket: Ticket, given: &mut Given) {
    match book.history(ticket) {
        Ok(Some(draft)) => push_draft(given, draft),
        Ok(None) => given.push("-\n"),
        Err(_) => given.cut(),
    }
}

/// Adds the text of a book's history before its first entry.
fn push_opening(book: &Book, given: &mut Given) {
    match book.opening() {
        Ok(text) => push_bytes(given, text.as_slice()),
        Err(_) => given.cut(),
    }
}

/// Adds an answer as a line, or `-` if there is none.
fn push_answer(given: &mut Given, answer: Option<Answer>) {
    match answer {
        Some(answer) => tell(given, &answer),
        None => given.push("-\n"),
    }
}

/// Returns the place of an entry as a number.
fn number_of(place: Option<u32>) -> Option<u64> {
    match place {
        Some(place) => Some(u64::from(place)),
        None => None,
    }
}

/// Returns the moment and the place of the entry with this ticket.
fn moment_and_place(book: &Book, ticket: Ticket) -> (Option<u64>, Option<u64>) {
    match book.entry(ticket) {
        Some(entry) => (Some(entry.moment), number_of(entry.place)),
        None => (None, None),
    }
}

/// Adds the line of a ticket.
fn push_entry(book: &Book, ticket: Ticket, given: &mut Given) {
    let (moment, place) = moment_and_place(book, ticket);
    push_number(given, Some(ticket), " ");
    push_number(given, moment, " ");
    push_number(given, place, " ");
    push_number(given, book.past().counts.get(ticket as usize).copied(), " ");
    push_answer(given, book.answer(ticket));
}

/// Adds the line of each ticket, and of the ticket past the end.
fn push_entries(book: &Book, given: &mut Given) {
    for ticket in 0..=book.len() {
        push_entry(book, ticket, given);
    }
}

/// Adds the reservation in force of a function, or that there is no such function.
fn push_reservation(book: &Book, function: FnNo, given: &mut Given) {
    if function == 0 || book.config().functions().len() < function as usize {
        given.push("no such function\n");
        return;
    }
    push_number(given, number_of(book.reservation(function)), "\n");
}

/// Adds what the configuration contains.
fn push_config(book: &Book, given: &mut Given) {
    let config = book.config();
    given.push("environments ");
    given.print(&config.environments());
    given.push(", functions ");
    given.print(&config.functions().len());
    given.push(", limit ");
    given.print(&config.account_limit());
    given.push("\n");
}

/// Adds a reply.
fn push_reply(given: &mut Given, reply: &Reply) {
    push_number(given, Some(u64::from(reply.status)), "\n");
    push_headers(given, &reply.headers);
    given.push("=");
    push_line(given, reply.body.as_slice());
}

/// Adds the reply to a ticket, or `-` if there is none.
fn push_rendered(book: &Book, ticket: Ticket, given: &mut Given) {
    match book.render(ticket) {
        Ok(Some(reply)) => push_reply(given, &reply),
        Ok(None) => given.push("-\n"),
        Err(_) => given.cut(),
    }
}

/// Adds a book's answer to a question.
pub fn push_reading(book: &Book, question: Question, given: &mut Given) {
    match question {
        Question::Entries => push_entries(book, given),
        Question::Opening => push_opening(book, given),
        Question::History(ticket) => push_history(book, ticket, given),
        Question::Render(ticket) => push_rendered(book, ticket, given),
        Question::Stats => tell(given, &book.stats()),
        Question::Due(moment) => tell(given, &book.due(moment)),
        Question::Life => tell(given, &book.life()),
        Question::Reservation(function) => push_reservation(book, function, given),
        Question::Salt => push_number(given, Some(book.salt()), "\n"),
        Question::Config => push_config(book, given),
    }
}

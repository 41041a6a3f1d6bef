//! What is seen, as text.

use crate::accounts::bells::Bells;
use crate::accounts::places::Said;
use crate::accounts::stand::Ending;
use crate::tallies::push_answered;
use account_lock::Look;
use call_model::{Stats, Ticket};
use case_tables::Given;
use lambda_wire::Reply;
use std::alloc::AllocError;
use std::fmt::Debug;

/// Adds the bells that rang in this step.
pub fn push_rings(given: &mut Given, bells: &Bells) {
    let count = bells.rings();
    if count > 0 {
        given.push(", rings");
    }
    for before in 0..count {
        given.push(" ");
        given.print(&bells.rang(before));
    }
    given.push("\n");
}

/// Adds how many bells rang in total.
pub fn push_all_rings(given: &mut Given, bells: &Bells) {
    given.push(" ");
    given.print(&bells.all());
    given.push(" rang\n");
}

/// Adds the answer of a ticket, or that it waits.
pub fn push_look(given: &mut Given, ticket: Ticket, look: Look) {
    match look {
        Look::Given(answer) => push_answered(given, ticket, answer),
        Look::Waiting => {
            given.push("  ");
            given.print(&ticket);
            given.push(" waits\n");
        }
    }
}

/// Adds counts, and ends the line.
fn push_counts(given: &mut Given, entries: u64, stats: Stats) {
    given.print(&entries);
    given.push(" entries, ");
    given.print(&stats.admitted);
    given.push(" admitted, ");
    given.print(&stats.throttled);
    given.push(" throttled, ");
    given.print(&stats.failed);
    given.push(" failed\n");
}

/// Adds a value as the rest of a line.
fn push_shown<T: Debug>(given: &mut Given, value: &T) {
    given.push(" ");
    given.show(value);
    given.push("\n");
}

/// Adds what is shown of a reply.
fn push_reply(given: &mut Given, reply: &Result<Option<Reply>, AllocError>) {
    match reply {
        Ok(Some(reply)) => {
            given.push(" a reply of status ");
            given.print(&reply.status);
            given.push("\n");
        }
        Ok(None) => given.push(" no reply\n"),
        Err(_) => given.cut(),
    }
}

/// Adds a text as lines.
fn push_text(given: &mut Given, text: &Vec<u8>) {
    given.push("\n");
    given.push_bytes(text.as_slice());
}

/// Adds a text, if there was memory for it.
fn push_whole(given: &mut Given, text: &Result<Vec<u8>, AllocError>) {
    match text {
        Ok(text) => push_text(given, text),
        Err(_) => given.cut(),
    }
}

/// Adds the text of an entry.
fn push_entry(given: &mut Given, text: &Result<Option<Vec<u8>>, AllocError>) {
    match text {
        Ok(Some(text)) => push_text(given, text),
        Ok(None) => given.push(" no entry\n"),
        Err(_) => given.cut(),
    }
}

/// Adds an account's answer, as the rest of a line or as lines.
pub fn push_said(given: &mut Given, said: &Said) {
    match said {
        Said::Look(look) => push_shown(given, look),
        Said::Due(due) => push_shown(given, due),
        Said::Life(life) => push_shown(given, life),
        Said::Stats(stats) => {
            given.push(" ");
            push_counts(given, stats.entries, *stats);
        }
        Said::Reservation(count) => push_shown(given, count),
        Said::Reply(reply) => push_reply(given, reply),
        Said::Text(text) => push_whole(given, text),
        Said::Entry(text) => push_entry(given, text),
        Said::NoFunction => given.push(" no function\n"),
    }
}

/// Adds the outcome of a settlement; for a crowd, only what no schedule changes.
pub fn push_ending(given: &mut Given, ending: Ending, crowded: bool) {
    match ending.settled {
        Err(fault) => {
            given.push("not settled:");
            push_shown(given, &fault);
        }
        Ok((stats, _)) if crowded => {
            given.push("settled: ");
            given.print(&stats.in_flight);
            given.push(" in flight\n");
        }
        Ok((stats, entries)) => {
            given.push("settled: ");
            push_counts(given, entries, stats);
        }
    }
    if let Some(parts) = ending.held_back {
        given.push("held back: ");
        given.print(&parts);
        given.push(" parts\n");
    }
}

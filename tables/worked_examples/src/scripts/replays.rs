//! Scripts: each is replayed whole, byte by byte, in form 2, and from the text of its history.

use crate::scripts::histories::{history_behind, push_entries_answers, shows};
use crate::scripts::pieces::{Page, Pieces};
use crate::scripts::texts::{number_of, push_bytes, script_of};
use case_tables::{Case, CaseFault, Given};
use script_replay::{ReplayFault, replay};
use std::alloc::{AllocError, Global};

/// How a script is replayed.
#[derive(Clone, Copy)]
struct Way<'a> {
    first: &'a [u8],
    script: &'a [u8],
    at_once: usize,
    fails: bool,
    room: usize,
}

/// How a replay ended, and what it wrote.
#[derive(Drop)]
struct Played {
    ended: Result<(), ReplayFault>,
    page: Page,
}

/// Replays a script.
fn play(alloc: Global, way: &Way<'_>) -> Result<Played, AllocError> {
    let mut reader = Pieces {
        first: way.first,
        script: way.script,
        at_once: way.at_once,
        fails: way.fails,
    };
    let mut page = Page::new(alloc, way.room)?;
    let ended = replay(alloc, &mut reader, &mut page);
    Ok(Played { ended, page })
}

/// Whether what was written before an allocation failed is whole lines from the start of `wanted`.
fn is_front(wanted: &str, written: &[u8]) -> bool {
    matches!(written.last(), None | Some(b'\n')) && wanted.as_bytes().starts_with(written)
}

/// Adds the line of a fault.
fn push_fault(text: &mut Given, fault: ReplayFault) {
    text.print(&fault);
    text.push(", status ");
    text.print(&fault.status());
    text.push("\n");
}

/// Adds what a replay wrote, and the line of its fault if it has one. If an allocation failed, what
/// was written must be whole lines from the start of `wanted`.
fn push_played(text: &mut Given, wanted: &str, played: &Played) -> Result<(), CaseFault> {
    let written = played.page.written();
    if played.ended == Err(ReplayFault::OutOfMemory) {
        if is_front(wanted, written) {
            return Err(CaseFault::Memory);
        }
        text.push("(memory ran out behind other lines)\n");
    }
    push_bytes(text, written);
    if let Err(fault) = played.ended {
        push_fault(text, fault);
    }
    text.end()
}

/// Returns the text of a replay.
fn text_of(alloc: Global, wanted: &str, way: &Way<'_>) -> Result<Given, CaseFault> {
    let played = play(alloc, way)?;
    let mut text = Given::new(alloc);
    match push_played(&mut text, wanted, &played) {
        Ok(()) => Ok(text),
        Err(fault) => Err(fault),
    }
}

/// Adds the text of one way to replay a script, if it differs from that of the whole replay.
fn push_way(title: &str, way: &Way<'_>, whole: &str, given: &mut Given) -> Result<(), CaseFault> {
    let text = text_of(given.alloc(), whole, way)?;
    if text.as_str() != whole {
        given.push(title);
        given.push(":\n");
        given.push(text.as_str());
    }
    Ok(())
}

/// Adds the answers that a history shows, if they differ from those of the script's entries.
fn push_shown(history: &[u8], kept: &[u8], given: &mut Given) {
    if !shows(history, kept) {
        given.push("the history shows other answers:\n");
        push_bytes(given, history);
    }
}

/// Adds the answers that a history's replay gives, if they differ from its own.
fn push_again(history: &[u8], kept: &[u8], given: &mut Given) -> Result<(), CaseFault> {
    let way = Way {
        first: b"",
        script: history,
        at_once: usize::MAX,
        fails: false,
        room: usize::MAX,
    };
    let mut wanted = Given::new(given.alloc());
    push_bytes(&mut wanted, kept);
    wanted.end()?;
    push_way("from its history", &way, wanted.as_str(), given)
}

/// Adds the answers that a script's history shows, if they differ from those of the script's
/// entries; and those that the replay of its text gives, if they differ.
fn push_entries(history: &[u8], whole: &str, given: &mut Given) -> Result<(), CaseFault> {
    let mut kept = Vec::new(given.alloc());
    push_entries_answers(&mut kept, whole.as_bytes())?;
    push_shown(history, kept.as_slice(), given);
    push_again(history, kept.as_slice(), given)
}

/// Adds the same for a script, if it has a history.
fn push_history(script: &[u8], whole: &str, given: &mut Given) -> Result<(), CaseFault> {
    match history_behind(given.alloc(), script) {
        Ok(Some(history)) => push_entries(history.as_slice(), whole, given),
        Ok(None) => {
            given.push("no history\n");
            Ok(())
        }
        Err(_) => Err(CaseFault::Memory),
    }
}

/// Returns how a case's script is replayed as a whole.
fn whole_way<'a>(case: &Case, script: &'a [u8]) -> Result<Way<'a>, CaseFault> {
    let room = match case.part("room") {
        Some(part) => number_of(part)?,
        None => usize::MAX,
    };
    Ok(Way {
        first: b"",
        script,
        at_once: usize::MAX,
        fails: case.part("reader-fails").is_some(),
        room,
    })
}

/// Adds what a script gives in form 2, if it is not in that form.
fn push_later(way: &Way<'_>, whole: &str, given: &mut Given) -> Result<(), CaseFault> {
    if way.script.starts_with(b"form 2") {
        return Ok(());
    }
    let later = Way {
        first: b"form 2\n",
        ..*way
    };
    push_way("in form 2", &later, whole, given)
}

/// Adds what the other ways give.
fn push_others(way: &Way<'_>, whole: &str, given: &mut Given) -> Result<(), CaseFault> {
    let slow = Way { at_once: 1, ..*way };
    push_way("byte by byte", &slow, whole, given)?;
    if whole.contains(", status ") {
        return Ok(());
    }
    push_later(way, whole, given)?;
    push_history(way.script, whole, given)
}

/// Adds what a script gives when it is replayed as a whole, and then in every other way.
fn push_whole(way: &Way<'_>, wanted: &str, given: &mut Given) -> Result<(), CaseFault> {
    let whole = text_of(given.alloc(), wanted, way)?;
    given.push(whole.as_str());
    push_others(way, whole.as_str(), given)
}

/// Adds the answers to a script that is replayed as a whole, byte by byte, in form 2 and from its
/// history. Its parts are those of a script; with `reader-fails` the reader fails after the script,
/// and with `room N` the writer takes N bytes. A case gives the answers and, after a fault, the
/// program's line on standard error and its status.
pub fn give(case: &Case, given: &mut Given) -> Result<(), CaseFault> {
    let script = script_of(given.alloc(), case, &["reader-fails", "room"])?;
    let way = whole_way(case, script.as_slice())?;
    push_whole(&way, case.wanted(), given)
}

//! Identifiers of requests, extensions and events.

use crate::parts::lines::{Calls, LineFault, Words, make_calls};
use arn_ids::{IdParts, event_id, extension_id, id_parts, request_id, salt_word};
use case_tables::{Case, CaseFault, Given};
use uuid::Uuid;

/// The calls of a case, which are independent of each other.
#[derive(Drop)]
struct Alone;

/// Returns the identifier of this kind.
fn identifier(kind: &str, salt: u64, number: u32, count: u64) -> Result<Uuid, LineFault> {
    if number >= 4096 || count >= 1 << 48 {
        return Err(LineFault::Malformed);
    }
    match kind {
        "request" => Ok(request_id(salt, number, count)),
        "extension" => Ok(extension_id(salt, number, count)),
        "event" => Ok(event_id(salt, number, count)),
        _ => Err(LineFault::Malformed),
    }
}

/// Adds the identifier of this kind for a salt, a number and a count.
fn make(kind: &str, numbers: Words<'_>, given: &mut Given) -> Result<(), LineFault> {
    let mut words = numbers;
    let salt = words.number()?;
    let number = words.short()?;
    given.print(&identifier(kind, salt, number, words.last_number()?)?);
    given.push("\n");
    Ok(())
}

/// Adds a word as a line of sixteen hexadecimal digits.
fn say_word(word: u64, given: &mut Given) {
    match format!(in given.alloc(); "{word:016x}") {
        Ok(text) => given.push(text.as_str()),
        Err(_) => given.cut(),
    }
    given.push("\n");
}

fn say_parts(given: &mut Given, parts: &IdParts) {
    given.show(&parts.kind);
    given.push(" ");
    given.print(&parts.number);
    given.push(" ");
    given.print(&parts.count);
    given.push(" ");
    say_word(parts.salt_word, given);
}

fn take_apart(text: &str, given: &mut Given) -> Result<(), LineFault> {
    let Ok(id) = Uuid::parse_str(text) else {
        return Err(LineFault::Malformed);
    };
    match id_parts(&id) {
        Some(parts) => say_parts(given, &parts),
        None => given.line("none"),
    }
    Ok(())
}

impl Calls for Alone {
    fn call(&mut self, line: &str, given: &mut Given) -> Result<(), LineFault> {
        let mut words = Words::of(line);
        match words.next() {
            "salt" => say_word(salt_word(words.last_number()?), given),
            "parts" => return take_apart(words.rest(), given),
            kind => return make(kind, words, given),
        }
        Ok(())
    }
}

/// Adds what the lines of a case about identifiers give.
///
/// | Line | What it gives |
/// |---|---|
/// | `request SALT N COUNT`, `extension ..`, `event ..` | the identifier of this number and count |
/// | `salt N` | the first sixteen hexadecimal digits of every identifier made with this salt |
/// | `parts UUID` | the parts of the identifier, if it is one |
pub fn give(case: &Case, given: &mut Given) -> Result<(), CaseFault> {
    make_calls(case, &mut Alone, given)
}

//! The extensions of an environment, from registration to their end.

use crate::answers::REASONS;
use crate::parts::answers::{answer_of, say_answers};
use crate::parts::lines::{Calls, LineFault, Opens, Words, call_opened, text_of};
use crate::parts::script_calls::call_of;
use crate::shown::tell;
use arn_ids::{Checked, Text};
use call_model::{Call, Reason};
use case_tables::{Case, CaseFault, Given, value_of};
use extension_set::{CLOSING_LIMIT, ExtensionSet, Moves, RegisterFault, Turn};
use std::alloc::{AllocError, Global};

/// The extensions of one environment, and the account that their calls are made to.
#[derive(Drop)]
struct Environment {
    config: Checked,
    set: ExtensionSet,
}

/// The events that an extension can subscribe to: whether to INVOKE, and whether to SHUTDOWN.
const EVENTS: [(&str, (bool, bool)); 4] = [
    ("i", (true, false)),
    ("s", (false, true)),
    ("is", (true, true)),
    ("-", (false, false)),
];

fn say_verdict(verdict: Result<(), RegisterFault>, given: &mut Given) {
    match verdict {
        Ok(()) => given.push("registered"),
        Err(fault) => given.print(&fault),
    }
    given.push("\n");
}

/// Registers an extension with this name for these events.
fn register_named(
    set: &mut ExtensionSet,
    name: &Text,
    events: (bool, bool),
    count: u64,
    given: &mut Given,
) -> Result<(), LineFault> {
    if name.as_str().len() > 128 {
        return Err(LineFault::Malformed);
    }
    let (invoke, shutdown) = events;
    say_verdict(set.register(name, invoke, shutdown, count), given);
    Ok(())
}

fn register(set: &mut ExtensionSet, words: Words<'_>, given: &mut Given) -> Result<(), LineFault> {
    let mut words = words;
    let name = words.next();
    let Some(events) = value_of(&EVENTS, words.next()) else {
        return Err(LineFault::Malformed);
    };
    let count = words.last_number()?;
    let name = text_of(given.alloc(), name)?;
    register_named(set, &name, events, count, given)
}

/// Returns the reason that a word names; a dash is `None`.
fn reason_of(word: &str) -> Result<Option<Reason>, LineFault> {
    match value_of(&REASONS, word) {
        Some(reason) => Ok(Some(reason)),
        None if word == "-" => Ok(None),
        None => Err(LineFault::Malformed),
    }
}

/// Gives the extensions a call, and adds its answers.
fn take_call(
    set: &mut ExtensionSet,
    turn: Turn,
    call: &Call,
    given: &mut Given,
) -> Result<(), LineFault> {
    if turn.now >= 1 << 53 || set.len() > 10 {
        return Err(LineFault::Malformed);
    }
    let mut moves = Moves::new();
    set.take(turn, call, &mut moves);
    say_answers(given, moves.as_slice());
    Ok(())
}

fn take(
    environment: &mut Environment,
    words: Words<'_>,
    given: &mut Given,
) -> Result<(), LineFault> {
    let mut words = words;
    let ticket = words.number()?;
    let own = answer_of(words.next())?;
    let closes = reason_of(words.next())?;
    let (now, call) = call_of(given.alloc(), &environment.config, words.rest())?;
    let turn = Turn {
        ticket,
        now,
        own,
        closes,
    };
    take_call(&mut environment.set, turn, &call, given)
}

fn invoke(set: &mut ExtensionSet, words: Words<'_>, given: &mut Given) -> Result<(), LineFault> {
    let mut words = words;
    let ticket = words.number()?;
    let deadline = words.last_number()?;
    if set.len() > 10 {
        return Err(LineFault::Malformed);
    }
    let mut moves = Moves::new();
    set.take_invoke(ticket, deadline, &mut moves);
    say_answers(given, moves.as_slice());
    Ok(())
}

/// Adds a name, unless it is empty.
fn push_name(names: &mut Vec<Text>, alloc: Global, name: &str) -> Result<(), AllocError> {
    if name.is_empty() {
        return Ok(());
    }
    let name = text_of(alloc, name)?;
    Ok(names.push(name)?)
}

/// Returns the names in these words.
fn names_of(alloc: Global, words: &str) -> Result<Vec<Text>, AllocError> {
    let mut names = Vec::new(alloc);
    for name in words.split(' ') {
        push_name(&mut names, alloc, name)?;
    }
    Ok(names)
}

/// Adds how many of the names in these words are free.
fn say_unregistered(set: &ExtensionSet, words: &str, given: &mut Given) {
    match names_of(given.alloc(), words) {
        Ok(names) => tell(given, &set.unregistered(names.as_slice())),
        Err(_) => given.cut(),
    }
}

/// Asks about a name.
fn ask_name(
    set: &ExtensionSet,
    admits: bool,
    name: &str,
    given: &mut Given,
) -> Result<(), LineFault> {
    let name = text_of(given.alloc(), name)?;
    match admits {
        true => say_verdict(set.admits(&name), given),
        false => tell(given, &set.lacks(&name)),
    }
    Ok(())
}

/// Asks about the extension with this number.
fn ask_one(set: &ExtensionSet, word: &str, count: u64, given: &mut Given) -> Result<(), LineFault> {
    match word {
        "is-known" => tell(given, &set.is_known(count)),
        "owes-end" => tell(given, &set.owes_end(count)),
        _ => return Err(LineFault::Malformed),
    }
    Ok(())
}

/// Asks about one extension or a name.
fn ask(
    set: &ExtensionSet,
    word: &str,
    words: Words<'_>,
    given: &mut Given,
) -> Result<(), LineFault> {
    match word {
        "admits" => ask_name(set, true, words.rest(), given),
        "lacks" => ask_name(set, false, words.rest(), given),
        "unregistered" => {
            say_unregistered(set, words.rest(), given);
            Ok(())
        }
        _ => ask_one(set, word, words.last_number()?, given),
    }
}

/// Returns one of the set's numbers.
fn number(set: &ExtensionSet, line: &str) -> Option<u64> {
    match line {
        "len" => Some(set.len() as u64),
        "waiting" => Some(set.waiting()),
        "silent" => Some(set.silent()),
        "closing-limit" => Some(CLOSING_LIMIT),
        _ => None,
    }
}

fn call_set(environment: &mut Environment, line: &str, given: &mut Given) -> Result<(), LineFault> {
    let mut words = Words::of(line);
    match words.next() {
        "register" => register(&mut environment.set, words, given),
        "invoke" => invoke(&mut environment.set, words, given),
        "take" => take(environment, words, given),
        word => ask(&environment.set, word, words, given),
    }
}

impl Calls for Environment {
    fn call(&mut self, line: &str, given: &mut Given) -> Result<(), LineFault> {
        if line == "clear" {
            self.set.clear();
            return Ok(());
        }
        match number(&self.set, line) {
            Some(number) => {
                tell(given, &number);
                Ok(())
            }
            None => call_set(self, line, given),
        }
    }
}

impl Opens for Environment {
    fn open(alloc: Global, config: Checked) -> Result<Environment, LineFault> {
        let set = ExtensionSet::open(alloc)?;
        Ok(Environment { config, set })
    }
}

/// Adds what the lines of a case about extensions give.
///
/// | Line | What it gives |
/// |---|---|
/// | `{..}` | nothing; the account whose calls are made, and no extensions |
/// | `register NAME EVENTS COUNT` | `registered`, or why not; the events are `i`, `s`, `is` or `-` |
/// | `take TICKET ANSWER REASON CALL` | the answers to parked Nexts at a call: ticket, answer, reason to close |
/// | `invoke TICKET DEADLINE` | the answers when an invocation begins |
/// | `admits NAME`, `lacks NAME` | whether the name may be registered, and is free |
/// | `unregistered NAMES` | how many of the names are free |
/// | `is-known COUNT`, `owes-end COUNT` | what is asked of one extension |
/// | `len`, `waiting`, `silent`, `closing-limit` | numbers |
/// | `clear` | nothing; every extension is forgotten |
pub fn give(case: &Case, given: &mut Given) -> Result<(), CaseFault> {
    call_opened::<Environment>(case, given)
}

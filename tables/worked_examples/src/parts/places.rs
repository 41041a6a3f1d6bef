//! Placement: the environment that takes the next invocation.

use crate::parts::lines::{Calls, LineFault, Opens, Words, call_opened};
use crate::shown::tell;
use arn_ids::{Checked, EnvNo};
use call_model::{Phase, Reason};
use case_tables::{Case, CaseFault, Given, value_of};
use placement::{Class, Places};
use std::alloc::Global;

/// The phases that a table can name, each with a fixed deadline and invocation.
const PHASES: [(&str, Phase); 7] = [
    ("idle", Phase::Idle),
    ("off", Phase::Off),
    (
        "starting",
        Phase::Starting {
            deadline: Some(10_000),
            bound: None,
        },
    ),
    (
        "starting bound",
        Phase::Starting {
            deadline: Some(10_000),
            bound: Some(7),
        },
    ),
    (
        "closing",
        Phase::Closing {
            reason: Reason::Timeout,
            until: 2000,
            bound: None,
        },
    ),
    (
        "closing bound",
        Phase::Closing {
            reason: Reason::Timeout,
            until: 2000,
            bound: Some(7),
        },
    ),
    (
        "busy",
        Phase::Busy {
            invoke: 7,
            deadline: 3000,
        },
    ),
];

/// The classes of environments.
const CLASSES: [(&str, Class); 4] = [
    ("idle", Class::Idle),
    ("starting-free", Class::StartingFree),
    ("closing-free", Class::ClosingFree),
    ("taken", Class::Taken),
];

fn phase_of(words: &str) -> Result<Phase, LineFault> {
    match value_of(&PHASES, words) {
        Some(phase) => Ok(phase),
        None => Err(LineFault::Malformed),
    }
}

fn class_of(word: &str) -> Result<Class, LineFault> {
    match value_of(&CLASSES, word) {
        Some(class) => Ok(class),
        None => Err(LineFault::Malformed),
    }
}

fn note(places: &mut Places, env: EnvNo, class: Class) -> Result<(), LineFault> {
    if env < 1 || places.environments() < env {
        return Err(LineFault::Malformed);
    }
    places.note(env, class);
    Ok(())
}

fn note_one(places: &mut Places, words: Words<'_>) -> Result<(), LineFault> {
    let mut words = words;
    let env = words.short()?;
    note(places, env, class_of(words.rest())?)
}

fn note_all(places: &mut Places, class: Class) -> Result<(), LineFault> {
    for index in 0..places.environments() {
        note(places, index.saturating_add(1), class)?;
    }
    Ok(())
}

/// Asks places what a word and its arguments ask.
fn ask(places: &Places, word: &str, words: Words<'_>, given: &mut Given) -> Result<(), LineFault> {
    match word {
        "choose" => tell(given, &places.choose(words.last_short()?)),
        "class" => tell(given, &Class::of(phase_of(words.rest())?)),
        "environments" => tell(given, &places.environments()),
        _ => return Err(LineFault::Malformed),
    }
    Ok(())
}

impl Calls for Places {
    fn call(&mut self, line: &str, given: &mut Given) -> Result<(), LineFault> {
        let mut words = Words::of(line);
        match words.next() {
            "note" => note_one(self, words),
            "note-all" => note_all(self, class_of(words.rest())?),
            word => ask(self, word, words, given),
        }
    }
}

impl Opens for Places {
    fn open(alloc: Global, config: Checked) -> Result<Places, LineFault> {
        match Places::open(alloc, &config) {
            Ok(places) => Ok(places),
            Err(_) => Err(LineFault::Memory),
        }
    }
}

/// Adds what the lines of a case about placement give.
///
/// | Line | What it gives |
/// |---|---|
/// | `{..}` | nothing; the account that the lines after it call |
/// | `note E CLASS`, `note-all CLASS` | nothing; the class of an environment, or of all |
/// | `choose F` | the environment that takes the function's next invocation |
/// | `environments` | the number of environments |
/// | `class PHASE` | the class of an environment in this phase |
pub fn give(case: &Case, given: &mut Given) -> Result<(), CaseFault> {
    call_opened::<Places>(case, given)
}

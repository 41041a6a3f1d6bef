//! The deadlines of environments, and which environment is due first.

use crate::parts::lines::{Calls, LineFault, Words, make_calls, number_if_given, short_of};
use crate::shown::tell;
use arn_ids::EnvNo;
use case_tables::{Case, CaseFault, Given};
use deadlines::Due;

/// Environments with their deadlines.
#[derive(Drop)]
struct Environments {
    due: Due,
}

fn set(due: &mut Due, env: EnvNo, deadline: Option<u64>) -> Result<(), LineFault> {
    if env < 1 || due.environments() < env {
        return Err(LineFault::Malformed);
    }
    due.set(env, deadline);
    Ok(())
}

fn set_one(due: &mut Due, words: Words<'_>) -> Result<(), LineFault> {
    let mut words = words;
    let env = words.short()?;
    set(due, env, number_if_given(words.rest())?)
}

fn set_all(due: &mut Due, divisor: u64) -> Result<(), LineFault> {
    for index in 0..due.environments() {
        let env = index.saturating_add(1);
        let deadline = u64::from(env).checked_rem(divisor);
        set(due, env, deadline)?;
    }
    Ok(())
}

fn call_due(due: &mut Due, line: &str, given: &mut Given) -> Result<(), LineFault> {
    let mut words = Words::of(line);
    match words.next() {
        "set" => return set_one(due, words),
        "set-all" => return set_all(due, words.last_number()?),
        "first-due" => tell(given, &due.first_due(words.last_number()?)),
        "environments" => tell(given, &due.environments()),
        _ => return Err(LineFault::Malformed),
    }
    Ok(())
}

impl Calls for Environments {
    fn call(&mut self, line: &str, given: &mut Given) -> Result<(), LineFault> {
        match line.strip_prefix("open ") {
            Some(count) => {
                self.due = Due::open(given.alloc(), short_of(count)?)?;
                Ok(())
            }
            None => call_due(&mut self.due, line, given),
        }
    }
}

/// Adds what the lines of a case about deadlines give.
///
/// | Line | What it gives |
/// |---|---|
/// | `open N` | nothing; the lines after it call N environments without deadlines |
/// | `set E MOMENT`, `set E -` | nothing; sets or removes the environment's deadline |
/// | `set-all N` | nothing; sets each environment's deadline to the environment's number modulo N |
/// | `first-due MOMENT` | the environment that is due at this moment |
/// | `environments` | the number of environments |
pub fn give(case: &Case, given: &mut Given) -> Result<(), CaseFault> {
    let mut environments = Environments {
        due: Due::open(given.alloc(), 0)?,
    };
    make_calls(case, &mut environments, given)
}

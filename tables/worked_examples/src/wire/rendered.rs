//! The replies that answers become.

ghost use Rattle.std.specs.Prelude.{IfOk};
ghost use Rattle.replies.specs.Gists.{IsTraced};

use crate::accounts::{Account, account_of};
use crate::wire::answers::answer_of;
use crate::wire::reply_text::push_reply;
use arn_ids::Checked;
use call_model::{Answer, Call};
use case_tables::{Case, CaseFault, Given, Part};
use replies::{Gist, reply};
use script::read_call;
use std::alloc::Global;

/// The parts that a case may have.
const PARTS: [&str; 5] = ["config", "lines-of", "call", "source", "answer"];

/// Returns the part of a case with this name.
fn part_of<'c>(case: &'c Case, part: &'static str) -> Result<&'c Part, CaseFault> {
    match case.part(part) {
        Some(part) => Ok(part),
        None => Err(CaseFault::Missing { part }),
    }
}

/// Reads the count in the request identifier of a part's call; 0 if the part names none.
fn count_of(part: &Part) -> Result<u64, CaseFault> {
    if part.arguments().is_empty() {
        return Ok(0);
    }
    match part.arguments().parse::<u64>() {
        Ok(count) => Ok(count),
        Err(_) => Err(part.malformed("a count is wanted")),
    }
}

/// Reads the call in a part's line.
#[tactic(auto, using(crate::proofs::Traced::timed_traced))]
fn call_of(alloc: Global, config: &Checked, part: &Part) -> Result<Call, CaseFault>
    ensures { IfOk result IsTraced }
{
    match read_call(alloc, config, true, part.lines().as_bytes())? {
        Some((_, call)) => Ok(call),
        None => Err(part.malformed("the line of a call is wanted")),
    }
}

/// Adds the reply to a call.
fn push_rendered(
    account: &Account,
    answer: Answer,
    call: (&Call, u64),
    source: (&Call, u64),
    given: &mut Given,
)
    requires { IsTraced source.0.now }
{
    let gist = Gist {
        answer,
        call: call.0,
        count: call.1,
        source: source.0,
        source_count: source.1,
    };
    match reply(given.alloc(), &account.config, account.salt, &gist) {
        Ok(reply) => push_reply(given, &reply),
        Err(_) => given.cut(),
    }
}

/// Adds the reply to a call whose answer names the call in a part.
fn push_sourced(
    account: &Account,
    config: &Checked,
    answer: Answer,
    call: (&Call, u64),
    named: &Part,
    given: &mut Given,
) -> Result<(), CaseFault> {
    let count = count_of(named)?;
    let source = call_of(given.alloc(), config, named)?;
    push_rendered(account, answer, call, (&source, count), given);
    Ok(())
}

/// Adds the reply to the call of a case, whose lines are read by this configuration.
fn push_answered(
    case: &Case,
    account: &Account,
    config: &Checked,
    answer: Answer,
    given: &mut Given,
) -> Result<(), CaseFault> {
    let part = part_of(case, "call")?;
    let named = case.part("source").unwrap_or(part);
    let count = count_of(part)?;
    let call = call_of(given.alloc(), config, part)?;
    push_sourced(account, config, answer, (&call, count), named, given)
}

/// Adds the reply to the call of a case, whose lines may have a configuration of their own.
fn push_read(
    case: &Case,
    account: &Account,
    answer: Answer,
    given: &mut Given,
) -> Result<(), CaseFault> {
    let Some(part) = case.part("lines-of") else {
        return push_answered(case, account, &account.config, answer, given);
    };
    let reader = account_of(given.alloc(), part)?;
    push_answered(case, account, &reader.config, answer, given)
}

/// Whether no earlier part of a case has this part's name.
fn is_first(case: &Case, part: &Part) -> bool {
    match case.part(part.word()) {
        Some(first) => first.line() == part.line(),
        None => false,
    }
}

/// Checks that a case has no unknown part, and none twice.
fn check_parts(case: &Case) -> Result<(), CaseFault> {
    for part in case.parts() {
        if !PARTS.contains(&part.word()) {
            return Err(CaseFault::Unknown { line: part.line() });
        }
        if !is_first(case, part) {
            return Err(part.malformed("a part that stands twice"));
        }
    }
    Ok(())
}

/// Adds what a case gives: the reply.
///
/// | Part | What it says |
/// |---|---|
/// | `config` | the configuration |
/// | `lines-of` | the configuration that the lines of calls are read by, if it is another |
/// | `call N` | the line of a call, and the count in its request identifier if it is an Invoke |
/// | `source N` | the call that the answer names, if it is another |
/// | `answer WORDS` | the answer |
pub fn give(case: &Case, given: &mut Given) -> Result<(), CaseFault> {
    check_parts(case)?;
    let config = part_of(case, "config")?;
    let answer = answer_of(part_of(case, "answer")?)?;
    let account = account_of(given.alloc(), config)?;
    push_read(case, &account, answer, given)
}

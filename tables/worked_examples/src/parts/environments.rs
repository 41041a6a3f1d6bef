//! Environments, call by call.

ghost use Rattle.std.specs.Prelude.{◌≡◌, ◌<◌, ◌^◌, true};
ghost use Rattle.env_phase.specs.Taking.{registered_name, IsShort};

use crate::parts::answers::say_answers;
use crate::parts::lines::{Calls, LineFault, Opens, Words, call_opened};
use crate::parts::script_calls::call_of;
use crate::shown::tell;
use arn_ids::Checked;
use call_model::Call;
use case_tables::{Case, CaseFault, Given};
use env_phase::{Environment, Step};
use extension_set::Moves;
use std::alloc::Global;
use std::marker::Model;

/// The most calls that an environment takes in a case.
const MOST_CALLS: u64 = 1000;

/// An environment, and the number of calls it has taken.
#[derive(Drop)]
struct Driven {
    environment: Environment,
    calls: u64,
}

impl Model for Driven {
    ghost use Rattle.std.specs.Prelude.{◌≤◌, ◌*◌};
    ghost use Rattle.environment_step.specs.After.{Known};

    ghost Value = { Known };

    ghost view = { λ d. d.environment };

    ghost invariant = { λ d. (d.environment.stand.events ≤ 24 * d.calls) × (d.environment.stand.registrations ≤ d.calls)
        × (d.calls ≤ 1000) };
}

/// Whether a call has no name, or one of at most 128 bytes.
fn is_short(call: &Call) -> bool
    ensures { result ≡ true → IsShort (registered_name call.now) }
{
    match call {
        Call::Register { name, .. } => name.as_str().len() <= 128,
        _ => true,
    }
}

/// Opens an environment of the first function.
fn open(alloc: Global, config: &Checked) -> Result<Driven, LineFault> {
    if config.functions().len() < 1 {
        return Err(LineFault::Malformed);
    }
    let function = config.function(1);
    if function.timeout_s > 900 {
        return Err(LineFault::Malformed);
    }
    Ok(Driven {
        environment: Environment::open(alloc, function)?,
        calls: 0,
    })
}

impl Driven {
    /// Gives the environment a call, and returns its answers.
    fn take(&mut self, step: Step, call: &Call) -> Result<Moves, LineFault>
        requires { step.now < 2 ^ 53 }
    {
        if self.calls >= MOST_CALLS || !is_short(call) {
            return Err(LineFault::Malformed);
        }
        let mut moves = Moves::new();
        self.environment.take(step, call, &mut moves);
        self.calls += 1;
        Ok(moves)
    }
}

fn say_phase(environment: &Environment, moves: &Moves, given: &mut Given) {
    tell(given, &environment.phase());
    say_answers(given, moves.as_slice());
}

/// Asks an environment for one of its values.
fn ask(environment: &Environment, line: &str, given: &mut Given) -> Result<(), LineFault> {
    match line {
        "members" => tell(given, &environment.members()),
        "is-taken" => tell(given, &environment.is_taken()),
        "is-off" => tell(given, &environment.is_off()),
        "bound" => tell(given, &environment.bound()),
        "deadline" => tell(given, &environment.deadline()),
        _ => return Err(LineFault::Malformed),
    }
    Ok(())
}

/// An account with an environment of its first function.
#[derive(Drop)]
struct Account {
    config: Checked,
    driven: Driven,
    invokes: u64,
}

impl Account {
    /// Returns the step of a call; counts it if it is an Invoke.
    fn step(&mut self, ticket: u64, now: u64, call: &Call) -> Step {
        let mut count = 0;
        if let Call::Invoke { .. } = call {
            self.invokes = self.invokes.saturating_add(1);
            count = self.invokes;
        }
        Step { ticket, now, count }
    }

    /// Gives the environment a call, and adds its phase and the answers.
    fn take_call(&mut self, step: Step, call: &Call, given: &mut Given) -> Result<(), LineFault> {
        if step.now >= 1 << 53 {
            return Err(LineFault::Malformed);
        }
        let moves = self.driven.take(step, call)?;
        say_phase(&self.driven.environment, &moves, given);
        Ok(())
    }

    fn take(&mut self, words: Words<'_>, given: &mut Given) -> Result<(), LineFault> {
        let mut words = words;
        let ticket = words.number()?;
        let (now, call) = call_of(given.alloc(), &self.config, words.rest())?;
        let step = self.step(ticket, now, &call);
        self.take_call(step, &call, given)
    }
}

impl Calls for Account {
    fn call(&mut self, line: &str, given: &mut Given) -> Result<(), LineFault> {
        if line.contains(' ') {
            return self.take(Words::of(line), given);
        }
        ask(&self.driven.environment, line, given)
    }
}

impl Opens for Account {
    fn open(alloc: Global, config: Checked) -> Result<Account, LineFault> {
        let driven = open(alloc, &config)?;
        Ok(Account {
            config,
            driven,
            invokes: 0,
        })
    }
}

/// Adds what the lines of a case about environments give.
///
/// | Line | What it gives |
/// |---|---|
/// | `{..}` | nothing; the lines after it call a new environment of its first function |
/// | `TICKET CALL` | the phase after this call of a script; below it, the call's answers |
/// | `members`, `is-taken`, `is-off`, `bound`, `deadline` | this value of the environment |
pub fn give(case: &Case, given: &mut Given) -> Result<(), CaseFault> {
    call_opened::<Account>(case, given)
}

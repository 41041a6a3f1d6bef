//! Configurations, and the first fault of each.

use crate::parts::lines::{Calls, LineFault, Words, make_calls};
use crate::shown::tell;
use arn_ids::{Checked, Config, ConfigFault};
use case_tables::{Case, CaseFault, Given};
use lambda_wire::{Setup, WireFault, read_config};
use std::alloc::{AllocError, Global};

/// What was read.
#[derive(Drop)]
struct Read {
    many: String,
    checked: Option<Checked>,
}

/// Reads a configuration.
pub fn setup_of(alloc: Global, line: &str) -> Result<Setup, LineFault> {
    match read_config(alloc, line.as_bytes()) {
        Ok(setup) => Ok(setup),
        Err(WireFault::OutOfMemory) => Err(LineFault::Memory),
        Err(_) => Err(LineFault::Malformed),
    }
}

/// Reads a configuration that has no fault.
pub fn configuration_of(alloc: Global, line: &str) -> Result<Checked, LineFault> {
    let setup = setup_of(alloc, line)?;
    match setup.config.check() {
        Ok(checked) => Ok(checked),
        Err(_) => Err(LineFault::Malformed),
    }
}

fn say_fault(fault: ConfigFault, given: &mut Given) {
    given.print(&fault);
    given.push("\n");
}

/// Repeats a text `count` times, with commas between the copies.
fn many_of(alloc: Global, count: u64, text: &str) -> Result<String, AllocError> {
    let mut many = String::from_str(alloc, text)?;
    for _ in 1..count {
        many.push(',')?;
        many.push_str(text)?;
    }
    Ok(many)
}

/// Returns one of a configuration's numbers.
fn number(checked: &Checked, word: &str) -> Option<u64> {
    match word {
        "account-limit" => Some(u64::from(checked.account_limit())),
        "least-remainder" => Some(u64::from(checked.least_remainder())),
        "invoke-port" => Some(u64::from(checked.invoke_port())),
        "environments" => Some(u64::from(checked.environments())),
        "functions" => Some(checked.functions().len() as u64),
        _ => None,
    }
}

/// Adds the name of the function with this number.
fn name_of(checked: &Checked, number: u32, given: &mut Given) -> Result<(), LineFault> {
    if number < 1 || checked.functions().len() < number as usize {
        return Err(LineFault::Malformed);
    }
    given.line(checked.function(number).name.as_str());
    Ok(())
}

/// Adds the function of an environment.
fn owner(checked: &Checked, env: u32, given: &mut Given) -> Result<(), LineFault> {
    if env < 1 || checked.environments() < env {
        return Err(LineFault::Malformed);
    }
    tell(given, &checked.function_of(env));
    Ok(())
}

/// Asks a configuration about the function or the environment with this number.
fn ask_number(
    checked: &Checked,
    word: &str,
    number: u32,
    given: &mut Given,
) -> Result<(), LineFault> {
    match word {
        "name-of" => name_of(checked, number, given),
        "function-of" => owner(checked, number, given),
        _ => Err(LineFault::Malformed),
    }
}

/// Asks a configuration what a word and its arguments ask.
fn ask_words(checked: &Checked, line: &str, given: &mut Given) -> Result<(), LineFault> {
    let mut words = Words::of(line);
    match words.next() {
        "region" => given.line(checked.home().region.as_str()),
        "number-of" => tell(given, &checked.function_named(words.rest().as_bytes())),
        word => return ask_number(checked, word, words.last_short()?, given),
    }
    Ok(())
}

/// Asks a configuration for one of its values.
fn ask(checked: &Checked, line: &str, given: &mut Given) -> Result<(), LineFault> {
    match number(checked, line) {
        Some(number) => {
            tell(given, &number);
            Ok(())
        }
        None => ask_words(checked, line, given),
    }
}

impl Read {
    /// Takes a configuration that was read, and adds its fault.
    fn take(&mut self, config: Config, given: &mut Given) {
        match config.check() {
            Ok(checked) => {
                self.checked = Some(checked);
                given.line("no fault");
            }
            Err(place) => say_fault(place.fault, given),
        }
    }

    /// Reads a configuration that is given in full, and adds its fault.
    fn read_whole(&mut self, line: &str, given: &mut Given) -> Result<(), LineFault> {
        let setup = setup_of(given.alloc(), line)?;
        self.take(setup.config, given);
        Ok(())
    }

    /// Reads a configuration, and adds its fault.
    fn read(&mut self, line: &str, given: &mut Given) -> Result<(), LineFault> {
        let whole = line.replace(given.alloc(), "MANY", self.many.as_str())?;
        self.read_whole(whole.as_str(), given)
    }

    /// Stores what `MANY` stands for.
    fn keep(&mut self, alloc: Global, words: Words<'_>) -> Result<(), LineFault> {
        let mut words = words;
        let count = words.number()?;
        self.many = many_of(alloc, count, words.rest())?;
        Ok(())
    }

    /// Asks the most recent configuration.
    fn ask(&self, line: &str, given: &mut Given) -> Result<(), LineFault> {
        match &self.checked {
            Some(checked) => ask(checked, line, given),
            None => Err(LineFault::Malformed),
        }
    }
}

impl Calls for Read {
    fn call(&mut self, line: &str, given: &mut Given) -> Result<(), LineFault> {
        if line.starts_with('{') {
            return self.read(line, given);
        }
        if line == "entries-fault" {
            say_fault(ConfigFault::EntriesOutOfRange, given);
            return Ok(());
        }
        match line.strip_prefix("many ") {
            Some(words) => self.keep(given.alloc(), Words::of(words)),
            None => self.ask(line, given),
        }
    }
}

/// Adds what the lines of a case about configurations give.
///
/// | Line | What it gives |
/// |---|---|
/// | `{..}` | the first fault of this configuration, or that it has none |
/// | `many N TEXT` | nothing; in later configurations `MANY` stands for N copies of the text |
/// | `region`, `functions` .. | what the configuration that was read last has |
/// | `entries-fault` | the fault of the program's own |
pub fn give(case: &Case, given: &mut Given) -> Result<(), CaseFault> {
    let mut read = Read {
        many: String::new(given.alloc()),
        checked: None,
    };
    make_calls(case, &mut read, given)
}

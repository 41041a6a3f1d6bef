//! Names of functions, read and written in a home.

use crate::parts::lines::{Calls, LineFault, Words, make_calls, text_of};
use crate::shown::tell;
use arn_ids::{FunctionName, Home, NameFault, Named, arn_text};
use case_tables::{Case, CaseFault, Given};
use std::alloc::{AllocError, Global};

/// The home of the names.
#[derive(Drop)]
struct Place {
    home: Home,
}

fn home(alloc: Global, account: &str, region: &str) -> Result<Home, AllocError> {
    Ok(Home {
        account: text_of(alloc, account)?,
        region: text_of(alloc, region)?,
    })
}

fn say_named(given: &mut Given, named: &Named) {
    given.push(named.name.as_str());
    given.push(if named.qualified {
        " at $LATEST\n"
    } else {
        "\n"
    });
}

fn read(home: &Home, name: &str, given: &mut Given) {
    match FunctionName::parse(given.alloc(), home, name) {
        Ok(named) => say_named(given, &named),
        Err(NameFault::OutOfMemory) => given.cut(),
        Err(fault) => tell(given, &fault),
    }
}

fn write(home: &Home, name: &str, qualified: bool, given: &mut Given) {
    match arn_text(given.alloc(), home, name, qualified) {
        Ok(arn) => given.line(arn.as_str()),
        Err(_) => given.cut(),
    }
}

/// Adds what a line other than `home` gives in this home.
fn say_name(home: &Home, line: &str, given: &mut Given) -> Result<(), LineFault> {
    let mut words = Words::of(line);
    match words.next() {
        "name" => read(home, words.rest(), given),
        "arn" => write(home, words.rest(), false, given),
        "qualified-arn" => write(home, words.rest(), true, given),
        _ => return Err(LineFault::Malformed),
    }
    Ok(())
}

impl Calls for Place {
    fn call(&mut self, line: &str, given: &mut Given) -> Result<(), LineFault> {
        let Some(place) = line.strip_prefix("home ") else {
            return say_name(&self.home, line, given);
        };
        let mut words = Words::of(place);
        self.home = home(given.alloc(), words.next(), words.rest())?;
        Ok(())
    }
}

/// Adds what the lines of a case about names give.
///
/// | Line | What it gives |
/// |---|---|
/// | `home ACCOUNT REGION` | nothing; the names after it are in this home |
/// | `name TEXT` | the function that the text names, or why it names none |
/// | `arn NAME`, `qualified-arn NAME` | the function's ARN, without and with `$LATEST` |
pub fn give(case: &Case, given: &mut Given) -> Result<(), CaseFault> {
    let mut place = Place {
        home: home(given.alloc(), "", "")?,
    };
    make_calls(case, &mut place, given)
}

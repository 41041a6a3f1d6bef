//! Lines of scripts, and the calls that they stand for.

use crate::parts::lines::{Calls, LineFault, Opens, Words, call_opened};
use crate::shown::tell;
use arn_ids::Checked;
use call_model::Call;
use case_tables::{Case, CaseFault, Given};
use std::alloc::{AllocError, Global};

/// The account whose scripts are read.
#[derive(Drop)]
struct Account {
    config: Checked,
}

/// Returns the text between the bars.
fn between_bars(words: &str) -> Option<&str> {
    words.strip_prefix('|')?.strip_suffix('|')
}

/// Replaces `<tab>` and `<return>` in a text by their bytes.
fn with_bytes(alloc: Global, text: &str) -> Result<String, AllocError> {
    let line = text.replace(alloc, "<tab>", "\t")?;
    line.as_str().replace(alloc, "<return>", "\r")
}

/// Returns the line between the bars.
fn line_of(alloc: Global, words: &str) -> Result<String, LineFault> {
    match between_bars(words) {
        Some(text) => Ok(with_bytes(alloc, text)?),
        None => Err(LineFault::Malformed),
    }
}

fn say_whether(call: &Option<(u64, Call)>, given: &mut Given) {
    given.push(if call.is_some() {
        "a call\n"
    } else {
        "no call\n"
    });
}

/// Adds the call of a line, or `otherwise` if it has none.
fn say_call(call: &Option<(u64, Call)>, otherwise: &str, given: &mut Given) {
    match call {
        Some(call) => tell(given, call),
        None => given.push(otherwise),
    }
}

/// Puts `count` letters in place of `<letters>` in a line.
fn put_letters(alloc: Global, line: &str, count: usize) -> Result<String, LineFault> {
    let letters = "x".repeat(alloc, count)?;
    Ok(line.replace(alloc, "<letters>", letters.as_str())?)
}

/// Reads a number of letters and a line, and puts the letters into it.
fn with_letters(alloc: Global, words: Words<'_>) -> Result<String, LineFault> {
    let mut words = words;
    let count = words.short()?;
    let line = line_of(alloc, words.rest())?;
    put_letters(alloc, line.as_str(), count as usize)
}

/// Returns the text of a line, given between bars.
fn text_of(alloc: Global, word: &str, words: Words<'_>) -> Result<String, LineFault> {
    match word {
        "letters" => with_letters(alloc, words),
        _ => line_of(alloc, words.rest()),
    }
}

/// Adds what a word asks about a line.
fn say(word: &str, call: &Option<(u64, Call)>, given: &mut Given) -> Result<(), LineFault> {
    match word {
        "call" => say_call(call, "no call\n", given),
        "no-call" => say_call(call, "", given),
        "form-1" | "letters" => say_whether(call, given),
        _ => return Err(LineFault::Malformed),
    }
    Ok(())
}

/// Reads a line of a script, in a form with or without `reserve`, and adds what a word asks about
/// it.
fn read(config: &Checked, word: &str, line: &str, given: &mut Given) -> Result<(), LineFault> {
    match script::read_call(given.alloc(), config, word != "form-1", line.as_bytes()) {
        Ok(call) => say(word, &call, given),
        Err(_) => Err(LineFault::Memory),
    }
}

impl Calls for Account {
    fn call(&mut self, line: &str, given: &mut Given) -> Result<(), LineFault> {
        let mut words = Words::of(line);
        let word = words.next();
        let text = text_of(given.alloc(), word, words)?;
        read(&self.config, word, text.as_str(), given)
    }
}

impl Opens for Account {
    fn open(_alloc: Global, config: Checked) -> Result<Account, LineFault> {
        Ok(Account { config })
    }
}

/// Adds what the cases about lines of scripts give. A line of a script is between bars (here
/// quotes); `<tab>` and `<return>` stand for these bytes.
///
/// | Line | What it gives |
/// |---|---|
/// | `{..}` | nothing; the account whose scripts are read |
/// | `call 'LINE'` | the line's moment and call, or `no call` |
/// | `no-call 'LINE'` | nothing if the line stands for no call |
/// | `form-1 'LINE'` | whether it stands for a call in a script of form 1 |
/// | `letters N 'LINE'` | whether it stands for a call, with N letters in place of `<letters>` |
pub fn give(case: &Case, given: &mut Given) -> Result<(), CaseFault> {
    call_opened::<Account>(case, given)
}

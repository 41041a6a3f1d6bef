//! Histories, and the text of their calls and answers.

mod past;

use crate::parts::configurations::setup_of;
use crate::parts::histories::past::Recorded;
use crate::parts::lines::{Calls, LineFault, Words, make_calls};
use crate::parts::script_calls::call_of;
use crate::parts::written_answers::answer_of;
use crate::shown::taken;
use arn_ids::Checked;
use call_model::{Answer, Answers, Entry, Past, Ticket};
use case_tables::{Case, CaseFault, Given};
use script::{draft_entry, push_answers};
use std::alloc::Global;
use std::mem;

/// An account, its entries, and the answers of the next entry.
#[derive(Drop)]
struct Account {
    config: Option<Checked>,
    salt: u64,
    recorded: Recorded,
    answers: Vec<(Ticket, Answer)>,
}

/// Adds the entry with this number as the history's text has it.
fn say_entry(past: &Past, number: u64, given: &mut Given) -> Result<(), LineFault> {
    if past.entries.len() as u64 <= number {
        return Err(LineFault::Malformed);
    }
    let draft = draft_entry(given.alloc(), past, number as usize)?;
    let written = taken(draft)?;
    given.push_bytes(written.as_slice());
    Ok(())
}

/// Adds the answers of the entry with this number.
fn say_answers(past: &Past, number: u64, given: &mut Given) -> Result<(), LineFault> {
    if past.entries.len() as u64 <= number {
        return Err(LineFault::Malformed);
    }
    let mut written = Vec::new(given.alloc());
    push_answers(&mut written, past, number as usize)?;
    given.push_bytes(written.as_slice());
    Ok(())
}

impl Account {
    fn open(&mut self, alloc: Global, line: &str) -> Result<(), LineFault> {
        let setup = setup_of(alloc, line)?;
        self.salt = setup.salt;
        match setup.config.check() {
            Ok(checked) => self.config = Some(checked),
            Err(_) => return Err(LineFault::Malformed),
        }
        Ok(())
    }

    fn answer(&mut self, words: Words<'_>) -> Result<(), LineFault> {
        let mut words = words;
        let ticket = words.number()?;
        let answer = answer_of(words)?;
        Ok(self.answers.push((ticket, answer))?)
    }
}

/// Adds the entry of a call, which takes the answers collected so far.
fn add(
    alloc: Global,
    config: &Checked,
    recorded: &mut Recorded,
    answers: &mut Vec<(Ticket, Answer)>,
    line: &str,
) -> Result<(), LineFault> {
    let (moment, call) = call_of(alloc, config, line)?;
    let answers = mem::replace(answers, Vec::new(alloc));
    let entry = Entry {
        moment,
        call,
        answers: Answers::new(answers),
        place: None,
    };
    Ok(recorded.add(entry)?)
}

/// Adds what a word asks about the entry with this number.
fn say(past: &Past, word: &str, number: u64, given: &mut Given) -> Result<(), LineFault> {
    match word {
        "text" => say_entry(past, number, given),
        "answers" => say_answers(past, number, given),
        _ => Err(LineFault::Malformed),
    }
}

fn call_account(account: &mut Account, line: &str, given: &mut Given) -> Result<(), LineFault> {
    let mut words = Words::of(line);
    let word = words.next();
    let Some(config) = &account.config else {
        return Err(LineFault::Malformed);
    };
    if word == "entry" {
        let answers = &mut account.answers;
        return add(
            given.alloc(),
            config,
            &mut account.recorded,
            answers,
            words.rest(),
        );
    }
    let past = account.recorded.read(config, account.salt);
    say(&past, word, words.last_number()?, given)
}

impl Calls for Account {
    fn call(&mut self, line: &str, given: &mut Given) -> Result<(), LineFault> {
        if line.starts_with('{') {
            return self.open(given.alloc(), line);
        }
        match line.strip_prefix("answer ") {
            Some(words) => self.answer(Words::of(words)),
            None => call_account(self, line, given),
        }
    }
}

/// Adds what the lines of a case about histories give.
///
/// | Line | What it gives |
/// |---|---|
/// | `{..}` | nothing; the account whose calls are read and written, and its salt |
/// | `answer TICKET ANSWER` | nothing; an answer of the next entry |
/// | `entry CALL` | nothing; appends an entry with this call of a script |
/// | `text N` | the entry with this number, as the history's text has it |
/// | `answers N` | the answers of the entry with this number |
pub fn give(case: &Case, given: &mut Given) -> Result<(), CaseFault> {
    let alloc = given.alloc();
    let mut account = Account {
        config: None,
        salt: 0,
        recorded: Recorded::new(alloc),
        answers: Vec::new(alloc),
    };
    make_calls(case, &mut account, given)
}

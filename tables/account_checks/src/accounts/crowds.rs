//! Threads that share an account. Which of them comes first is not known, but every call gets its
//! ticket, and every bell rings once.

use crate::accounts::bells::Bells;
use crate::accounts::places::{Place, Taken};
use crate::accounts::stand::Turns;
use crate::lines::malformed;
use crate::tallies::part_of;
use account_lock::Identity;
use call_model::Ticket;
use case_tables::{CaseFault, Given};
use std::alloc::Global;
use std::sync::Wait;
use std::thread::{self, Threads};
use usage_ledger::{Keep, Ledgers, Tally, Token};

/// The length of a turn, in milliseconds.
const TURN: u64 = 500;

/// What a thread works with: its tally, and the environment where it polls.
#[derive(Drop)]
struct Job<K: Keep, L: Ledgers> {
    tally: Tally<K, L>,
    env: u64,
}

/// The values of the words in a line.
#[derive(Clone, Copy)]
struct Words {
    now: u64,
    env: u64,
    parked: Ticket,
}

/// Adds a word: NOW becomes the moment of the turn, ENV the environment of the thread, and PARKED
/// the ticket of its last Next.
fn push_word(text: &mut Given, word: &str, words: Words) {
    match word {
        "NOW" => text.print(&words.now),
        "ENV" => text.print(&words.env),
        "PARKED" => text.print(&words.parked),
        _ => text.push(word),
    }
}

/// Returns a line with the values of its words.
fn line_with(alloc: Global, line: &str, words: Words) -> Given {
    let mut text = Given::new(alloc);
    for word in line.split(' ') {
        if !text.as_str().is_empty() {
            text.push(" ");
        }
        push_word(&mut text, word, words);
    }
    text
}

/// A thread of a crowd: the account, the bells, its tally, and its token.
#[derive(Drop)]
struct Worker<'a, R, S: Identity, K: Keep> {
    place: &'a Place<R, S>,
    bells: &'a Bells,
    tally: Tally<K, S>,
    token: Token<S>,
}

impl<R: Wait, S: Identity, K: Keep> Worker<'_, R, S, K> {
    /// Makes the call of a line, and returns its ticket.
    fn call(&mut self, number: u64, line: &Given) -> Result<Ticket, CaseFault> {
        line.end()?;
        let bell = self.bells.unnumbered(0)?;
        let line = line.as_str().as_bytes();
        match self
            .place
            .submit(&mut self.tally, &mut self.token, line, bell)
        {
            Taken::At(ticket) => Ok(ticket),
            Taken::NoMemory => Err(CaseFault::Memory),
            _ => Err(malformed(number, "a call that is taken is wanted")),
        }
    }

    /// Makes the calls of all lines once, and returns the ticket of the last Next.
    fn turn(&mut self, turns: Turns<'_>, words: Words) -> Result<Ticket, CaseFault> {
        let mut words = words;
        let mut number = turns.first;
        for line in turns.lines.split('\n') {
            let ticket = self.call(number, &line_with(self.place.alloc, line, words))?;
            if line.contains(" next ") {
                words.parked = ticket;
            }
            number = number.saturating_add(1);
        }
        Ok(words.parked)
    }

    /// Makes the calls of all turns, at this environment.
    fn all_turns(&mut self, turns: Turns<'_>, env: u64) -> Result<(), CaseFault> {
        let mut parked = 0;
        for turn in 0..turns.count {
            let now = turn.wrapping_mul(TURN);
            parked = self.turn(turns, Words { now, env, parked })?;
        }
        Ok(())
    }
}

/// Makes the calls of a thread, and returns its tally.
fn work<R: Wait, S: Identity, K: Keep>(
    place: &Place<R, S>,
    bells: &Bells,
    turns: Turns<'_>,
    job: Job<K, S>,
) -> Result<Tally<K, S>, CaseFault> {
    let mut worker = Worker {
        place,
        bells,
        tally: job.tally,
        token: place.account.token(&place.rt),
    };
    match worker.all_turns(turns, job.env) {
        Ok(()) => Ok(worker.tally),
        Err(fault) => Err(fault),
    }
}

/// Adds the job for an environment, with a part of the first tally.
fn push_job<K: Keep, L: Ledgers>(
    jobs: &mut Vec<Job<K, L>>,
    tallies: &mut [Tally<K, L>],
    env: u64,
) -> Result<(), CaseFault> {
    let Ok(tally) = part_of(tallies.first_mut()) else {
        return Err(malformed(0, "a tally with parts is wanted"));
    };
    match jobs.push(Job { tally, env }) {
        Ok(()) => Ok(()),
        Err(_) => Err(CaseFault::Memory),
    }
}

/// Returns a job for each of four environments.
fn jobs_of<K: Keep, L: Ledgers>(
    alloc: Global,
    tallies: &mut [Tally<K, L>],
) -> Result<Vec<Job<K, L>>, CaseFault> {
    let mut jobs = Vec::with_capacity(alloc, 4)?;
    for env in 1..5 {
        push_job(&mut jobs, tallies, env)?;
    }
    Ok(jobs)
}

/// Appends the tally of a thread.
fn put_behind<K: Keep, L: Ledgers>(
    tallies: &mut Vec<Tally<K, L>>,
    worked: Result<Tally<K, L>, CaseFault>,
) -> Result<(), CaseFault> {
    match tallies.push(worked?) {
        Ok(()) => Ok(()),
        Err(_) => Err(CaseFault::Memory),
    }
}

/// Appends the tallies of all threads.
fn put_all<K: Keep, L: Ledgers>(
    tallies: &mut Vec<Tally<K, L>>,
    worked: Vec<Result<Tally<K, L>, CaseFault>>,
) -> Result<(), CaseFault> {
    for tally in worked {
        put_behind(tallies, tally)?;
    }
    Ok(())
}

/// Makes the calls of four threads at the same time, and appends their tallies.
pub fn crowd_of<R: Wait + Threads + Sync, S: Identity + Send + Sync, K: Keep + Send + Sync>(
    place: &Place<R, S>,
    tallies: &mut Vec<Tally<K, S>>,
    bells: &Bells,
    turns: Turns<'_>,
) -> Result<(), CaseFault> {
    let jobs = jobs_of(place.alloc, tallies)?;
    match thread::map_vec(&place.rt, jobs, &|job| work(place, bells, turns, job)) {
        Ok(worked) => put_all(tallies, worked),
        Err(_) => Err(CaseFault::Memory),
    }
}

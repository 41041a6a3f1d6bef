//! A check is a case whose parts are steps.

use crate::stage::Stage;
use case_tables::{Case, CaseFault, Given};
use http_connection::Machine;
use socket_peers::{Progress, number};
use std::alloc::Global;
use std::cell::Cell;

/// What peers hear of a service. A case gives the lines that they heard, and how the service ended.
#[derive(Drop)]
pub struct Checks<R> {
    rt: R,
    // Whether a check has waited in vain: then no more are run, so that the program ends.
    is_stuck: Cell<bool>,
}

/// A check that was run: what it gave at last, and each time before, when it differed.
#[derive(Drop)]
pub struct Ran {
    pub came: Result<(), CaseFault>,
    pub given: Given,
    pub before: Vec<Given>,
}

/// How often a case is played at most.
fn tries_of(case: &Case) -> Result<u32, CaseFault> {
    match case.part("tries") {
        Some(part) => number(part, part.arguments()),
        None => Ok(1),
    }
}

impl<R: Machine> Checks<R> {
    /// Creates checks, none of which has waited in vain.
    pub fn new(rt: R) -> Checks<R> {
        Checks {
            rt,
            is_stuck: Cell::new(false),
        }
    }

    /// Performs the steps of a case, and ends its service in any case.
    fn play(&self, case: &Case, given: &mut Given) -> Result<Progress, CaseFault> {
        let mut stage = Stage::new(self.rt, given.alloc(), case)?;
        let played = stage.play(case, given);
        let ended = stage.end(given)?;
        match played? {
            Progress::Stuck => Ok(Progress::Stuck),
            Progress::On => Ok(ended),
        }
    }

    /// Plays a case until it agrees, one time less than it may be played, and returns whether it does.
    fn play_before(&self, case: &Case, ran: &mut Ran) -> Result<bool, CaseFault> {
        for _ in 1..tries_of(case)? {
            let mut given = Given::new(ran.given.alloc());
            self.play(case, &mut given)?;
            given.end()?;
            if given.as_str() == case.wanted() {
                ran.given = given;
                return Ok(true);
            }
            ran.before.push(given)?;
        }
        Ok(false)
    }

    /// Runs a check, unless an earlier one has waited in vain, and adds what it gives.
    fn give(&self, case: &Case, ran: &mut Ran) -> Result<(), CaseFault> {
        if self.is_stuck.get() {
            ran.given.line("not run: a check before it waited in vain");
        } else if !self.play_before(case, ran)?
            && self.play(case, &mut ran.given)? == Progress::Stuck
        {
            self.is_stuck.set(true);
        }
        ran.given.end()
    }

    /// Runs a check, unless an earlier one has waited in vain.
    pub fn run(&self, alloc: Global, case: &Case) -> Ran {
        let mut ran = Ran {
            came: Ok(()),
            given: Given::new(alloc),
            before: Vec::new(alloc),
        };
        ran.came = self.give(case, &mut ran);
        ran
    }
}

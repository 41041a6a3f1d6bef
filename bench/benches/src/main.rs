//! The calls that `bench/requests` and `bench/submits` time. `benches PART BESIDE COUNT` makes
//! those of a part COUNT times, and prints how many were answered as they should be, and how many
//! nanoseconds they took. `benches` makes those of each part a few times, and prints how many were
//! answered as they should be.
#![tactic(auto)]

mod made;
mod requests;
mod submits;

use crate::made::Made;
use crate::requests::{decide_invoke, decide_response, render_delivery, render_output};
use crate::submits::{apply, submit};
use std::alloc::Global;
use std::env::{self, Env};
use std::io;
use std::process::ExitCode;
use std::sync::Wait;
use std::thread::Threads;
use std::time::Clock;

/// The parts of the bench.
#[derive(Clone, Copy)]
enum Part {
    /// `Side::decide` on an Invoke with a body of BESIDE bytes.
    DecideInvoke,
    /// `Side::decide` on a response with a body of BESIDE bytes.
    DecideResponse,
    /// `Book::render` of a delivery with a body of BESIDE bytes.
    RenderDelivery,
    /// `Book::render` of an output with a body of BESIDE bytes.
    RenderOutput,
    /// `Account::submit` from BESIDE threads, in turns of three calls.
    Submit,
    /// `Desk::apply` beside BESIDE parked polls, in the same turns.
    Apply,
}

/// The parts, by their words, each with the BESIDE of a short run.
const PARTS: [(&str, Part, u64); 6] = [
    ("decide_invoke", Part::DecideInvoke, 100),
    ("decide_response", Part::DecideResponse, 100),
    ("render_delivery", Part::RenderDelivery, 100),
    ("render_output", Part::RenderOutput, 100),
    ("submit", Part::Submit, 8),
    ("apply", Part::Apply, 248),
];

/// How often each part is made in a short run.
const FEW: u64 = 24;

/// Returns the part with this word, if there is one.
fn part_named(word: &str) -> Option<Part> {
    for (name, part, _) in PARTS {
        if name == word {
            return Some(part);
        }
    }
    None
}

/// Makes a part `count` times. Returns `None` if memory ran out, or BESIDE is out of the part's
/// range.
fn make<R: Wait + Threads + Clock + Sync>(
    rt: &R,
    alloc: Global,
    part: Part,
    beside: u64,
    count: u64,
) -> Option<Made> {
    match part {
        Part::DecideInvoke => decide_invoke(rt, alloc, beside, count),
        Part::DecideResponse => decide_response(rt, alloc, beside, count),
        Part::RenderDelivery => render_delivery(rt, alloc, beside, count),
        Part::RenderOutput => render_output(rt, alloc, beside, count),
        Part::Submit => submit(rt, alloc, beside, count),
        Part::Apply => apply(rt, alloc, beside, count),
    }
}

/// How a run ended.
#[derive(Clone, Copy)]
enum Ended {
    /// Everything that was asked for was made.
    Made,
    /// The arguments do not name a part and its numbers.
    Misused,
    /// Memory ran out, or BESIDE is out of the part's range.
    Unmade,
}

/// Makes each part a few times.
fn make_all<R: Wait + Threads + Clock + Print + Sync>(rt: &R, alloc: Global) -> io::Result<Ended> {
    for (name, part, beside) in PARTS {
        let Some(made) = make(rt, alloc, part, beside, FEW) else {
            return Ok(Ended::Unmade);
        };
        println!(rt; "{name}: {} of {FEW}", made.count)?;
    }
    Ok(Ended::Made)
}

/// Reads a number from a word.
fn number(word: Option<String>) -> Option<u64> {
    match word?.as_str().parse::<u64>() {
        Ok(number) => Some(number),
        Err(_) => None,
    }
}

/// Makes the part that the arguments name; without arguments, makes each part a few times.
fn run<R: Wait + Threads + Clock + Env + Print + AllocGlobal + Sync>(rt: &R) -> io::Result<Ended> {
    let alloc = rt.alloc();
    let mut words = env::args(rt)?.skip(1);
    let Some(word) = words.next() else {
        return make_all(rt, alloc);
    };
    let beside = number(words.next());
    let count = number(words.next());
    let (Some(part), Some(beside), Some(count)) = (part_named(word.as_str()), beside, count) else {
        return Ok(Ended::Misused);
    };
    let Some(made) = make(rt, alloc, part, beside, count) else {
        return Ok(Ended::Unmade);
    };
    println!(rt; "{} {}", made.count, made.nanoseconds)?;
    Ok(Ended::Made)
}

fn main(rt: HostRuntime) -> ExitCode {
    // If standard error takes nothing either, only the status tells.
    match run(&rt) {
        Ok(Ended::Made) => ExitCode::SUCCESS,
        Ok(Ended::Misused) => {
            let _told = eprintln!(rt; "usage: benches [PART BESIDE COUNT]");
            ExitCode::from(2)
        }
        _ => {
            let _told = eprintln!(rt; "benches: out of memory, or BESIDE is out of range");
            ExitCode::from(1)
        }
    }
}

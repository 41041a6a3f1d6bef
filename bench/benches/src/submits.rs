//! Calls on one account: from threads that share it, and through its desk.

ghost use Rattle.std.specs.Prelude.{◌≡◌, ◌<◌, ◌≤◌, ◌^◌, length, true, IfSome};
ghost use Rattle.std.specs.Arc.{arc_value};
ghost use Rattle.arn_ids.specs.Environments.{owners};
ghost use Rattle.arn_ids.specs.declared.config.Config.{Config};
ghost use Rattle.call_types.specs.Within.{IsWithin, is_body};

use crate::made::{Made, made_since, now};
use account_lock::{Account, AtOnce, Bell, Desk, Identity};
use arn_ids::Checked;
use bytes::Bytes;
use call_model::Call;
use lambda_wire::read_config;
use std::alloc::{AllocError, Global};
use std::marker::Brand;
use std::sync::{Arc, Wait};
use std::thread::{self, Threads};
use std::time::Clock;
use usage_ledger::{Blanks, KeepNone, Ledgers, Tally};

/// How many functions have an environment of their own; one more function has all the others.
const OWN: u32 = 8;

/// How many environments that function has.
const OTHERS: u32 = 248;

/// A bell that no one hears.
#[derive(Drop)]
struct Quiet;

impl Bell for Quiet {
    fn ring(self) {}
}

/// What a thread works with.
#[derive(Drop)]
struct Job<L: Ledgers> {
    tally: Tally<KeepNone, L>,
    env: u32,
}

/// Returns the text of the configuration.
fn config_text(alloc: Global) -> Result<String, AllocError> {
    let mut text = String::new(alloc);
    text.push_str(r#"{"account":"123456789012","region":"us-east-2","functions":["#)?;
    for own in 1..OWN + 1 {
        let function = format!(in alloc; "{{\"name\":\"f{own}\",\"ports\":[{}]}},", 9000 + own)?;
        text.push_str(function.as_str())?;
    }
    text.push_str(r#"{"name":"g","ports":[9100"#)?;
    for other in 1..OTHERS {
        let port = format!(in alloc; ",{}", 9100 + other)?;
        text.push_str(port.as_str())?;
    }
    text.push_str("]}]}")?;
    Ok(text)
}

/// Returns the configuration.
fn config(alloc: Global) -> Option<Arc<Checked>> {
    let text = config_text(alloc).ok()?;
    let setup = read_config(alloc, text.as_str().as_bytes()).ok()?;
    let checked = setup.config.check().ok()?;
    Arc::new(alloc, checked).ok()
}

/// Returns a short body.
fn body(alloc: Global) -> Option<Bytes>
    ensures { IfSome result (λ body. is_body body ≡ true) }
{
    let body = Bytes::copy_from_slice(alloc, b"{}").ok()?;
    if body.len() >= 100 {
        return None;
    }
    Some(body)
}

/// Returns the first, second or third call of a turn, at the environment and the function with this
/// number: a poll, an invocation or its response.
fn call(alloc: Global, env: u32, part: u32, turn: u64) -> Option<Call>
    requires from_one { 1 ≤ env }
    requires own { env ≤ 8 }
    requires few { turn < 2 ^ 32 }
    ensures { IfSome result (λ call. (config : Config) → 8 ≤ length config.functions → 8 ≤ length (owners config)
        → IsWithin config call) }
{
    if part == 0 {
        return Some(Call::RuntimeNext { env });
    }
    if part == 1 {
        return Some(Call::Invoke {
            function: env,
            qualified: false,
            trace: None,
            body: body(alloc)?,
        });
    }
    Some(Call::Response {
        env,
        id: turn + 1,
        body: body(alloc)?,
    })
}

/// Makes the turns of one thread, and returns how many calls were taken.
fn work<S: Identity>(
    rt: &impl Wait,
    alloc: Global,
    account: &Account<S, Quiet>,
    job: Job<S>,
    turns: u64,
) -> Option<u64>
    requires functions { 8 ≤ length S.config.functions }
    requires environments { 8 ≤ length (owners S.config) }
    requires few { turns < 2 ^ 32 }
{
    let Job { tally, env } = job;
    let mut tally = tally;
    let mut token = account.token(rt);
    if env < 1 || env > OWN {
        return None;
    }
    let mut taken: u64 = 0;
    for turn in 0..turns {
        for part in 0..3 {
            let call = call(alloc, env, part, turn)?;
            if account
                .submit(rt, &mut tally, &mut token, 0, call, Some(Quiet), &AtOnce)
                .is_ok()
            {
                taken = taken.saturating_add(1);
            }
        }
    }
    Some(taken)
}

/// Returns a job for each thread, with a part of the tally.
fn jobs<L: Ledgers>(alloc: Global, tally: Tally<KeepNone, L>, threads: u64) -> Option<Vec<Job<L>>> {
    let mut root = tally;
    let mut jobs = Vec::new(alloc);
    if threads > OWN as u64 {
        return None;
    }
    for thread in 0..threads as u32 {
        if root.parts() < 2 {
            return None;
        }
        let job = Job {
            tally: root.split(),
            env: thread + 1,
        };
        jobs.push(job).ok()?;
    }
    Some(jobs)
}

/// Makes the turns of all threads.
fn submits<R: Wait + Threads + Clock + Sync, S: Identity + Send + Sync>(
    rt: &R,
    alloc: Global,
    account: Account<S, Quiet>,
    jobs: Vec<Job<S>>,
    turns: u64,
) -> Option<Made>
    requires functions { 8 ≤ length S.config.functions }
    requires environments { 8 ≤ length (owners S.config) }
    requires few { turns < 2 ^ 32 }
{
    let shared = &account;
    let begun = now(rt);
    let done = thread::map_vec(
        rt,
        jobs,
        &|job| -> Option<u64>
            requires functions { 8 ≤ length S.config.functions }
            requires environments { 8 ≤ length (owners S.config) }
            requires few { turns < 2 ^ 32 }
        { work(rt, alloc, shared, job, turns) },
    );
    let mut taken: u64 = 0;
    for some in done.ok()? {
        taken = taken.saturating_add(some?);
    }
    Some(made_since(rt, begun, taken))
}

/// Makes one call through the desk.
fn apply_once<L: Ledgers>(
    desk: &mut Desk<Quiet, L>,
    tally: &mut Tally<KeepNone, L>,
    call: Call,
) -> bool
    requires within { IsWithin desk.old.book.config call }
    ensures config { desk.new.book.config ≡ desk.old.book.config }
{
    desk.apply(tally, 0, call, Some(Quiet)).is_ok()
}

/// Parks `parked` polls at the environments of the last function. Returns whether all were taken.
fn park<L: Ledgers>(
    desk: &mut Desk<Quiet, L>,
    tally: &mut Tally<KeepNone, L>,
    parked: u64,
) -> bool {
    if parked > OTHERS as u64 {
        return false;
    }
    for other in 0..parked as u32 {
        let env = OWN + other + 1;
        if env > desk.book().config().environments() {
            return false;
        }
        if !apply_once(desk, tally, Call::RuntimeNext { env }) {
            return false;
        }
    }
    true
}

/// Makes turns through the desk, at the first environment.
fn applies<R: Clock, L: Ledgers>(
    rt: &R,
    alloc: Global,
    desk: &mut Desk<Quiet, L>,
    tally: &mut Tally<KeepNone, L>,
    turns: u64,
) -> Option<Made>
    requires functions { 8 ≤ length desk.old.book.config.functions }
    requires environments { 8 ≤ length (owners desk.old.book.config) }
    requires few { turns < 2 ^ 32 }
{
    let begun = now(rt);
    let mut taken: u64 = 0;
    for turn in 0..turns {
        for part in 0..3 {
            let call = call(alloc, 1, part, turn)?;
            if apply_once(desk, tally, call) {
                taken = taken.saturating_add(1);
            }
        }
    }
    Some(made_since(rt, begun, taken))
}

/// How the calls reach the account.
#[derive(Clone, Copy)]
enum Way {
    /// From this many threads.
    Threads(u64),
    /// Through its desk, beside this many parked polls.
    Desk(u64),
}

/// Opens an account, and makes `count` calls.
fn run<R: Wait + Threads + Clock + Sync, S: Identity + Send + Sync>(
    rt: &R,
    alloc: Global,
    config: Arc<Checked>,
    max_entries: u64,
    blanks: Blanks,
    way: Way,
    count: u64,
) -> Option<Made>
    requires configured { arc_value config ≡ S.config }
    requires salted { S.salt ≡ 0 }
    requires limited { max_entries ≡ S.most }
    requires named { blanks ≡ S.names }
{
    if config.functions().len() < 8 || config.environments() < 8 {
        return None;
    }
    let opened = Account::<S, Quiet>::open::<KeepNone>(alloc, config, 0, max_entries, blanks);
    let (account, tally) = opened.ok()?;
    match way {
        Way::Threads(threads) => {
            let turns = count / 3 / threads.max(1);
            if turns >= 1 << 32 {
                return None;
            }
            submits(rt, alloc, account, jobs(alloc, tally, threads)?, turns)
        }
        Way::Desk(parked) => {
            let turns = count / 3;
            if turns >= 1 << 32 {
                return None;
            }
            let (mut desk, _) = account.into_desk();
            let mut tally = tally;
            if !park(&mut desk, &mut tally, parked) {
                return None;
            }
            if desk.book().config().functions().len() < 8
                || desk.book().config().environments() < 8
            {
                return None;
            }
            applies(rt, alloc, &mut desk, &mut tally, turns)
        }
    }
}

/// Names the configuration, the salt, the limit, the ledgers and the history of the account.
fn run_by_brand<R: Wait + Threads + Clock + Sync>(
    rt: &R,
    alloc: Global,
    way: Way,
    count: u64,
) -> Option<Made> {
    let config = config(alloc)?;
    let blanks = Blanks::new(alloc).ok()?;
    run::<R, Brand>(rt, alloc, config, 1 << 32, blanks, way, count)
}

/// Submits `count` calls, in turns of three, from at most eight threads. Returns `None` if memory
/// ran out, or there are more threads.
pub fn submit<R: Wait + Threads + Clock + Sync>(
    rt: &R,
    alloc: Global,
    threads: u64,
    count: u64,
) -> Option<Made> {
    run_by_brand(rt, alloc, Way::Threads(threads), count)
}

/// Applies `count` calls to a desk, in turns of three, beside at most 248 parked polls. Returns
/// `None` if memory ran out, or there are more polls.
pub fn apply<R: Wait + Threads + Clock + Sync>(
    rt: &R,
    alloc: Global,
    parked: u64,
    count: u64,
) -> Option<Made> {
    run_by_brand(rt, alloc, Way::Desk(parked), count)
}

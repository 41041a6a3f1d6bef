//! A service on its own thread.

ghost use Rattle.std.specs.Prelude.{◌≡◌, ◌<◌, ◌^◌};
ghost use Rattle.std.specs.Arc.{arc_value};

use account_lock::{Account, Identity, SettleFault};
use call_model::Stats;
use case_tables::{CaseFault, Part};
use http_front::{Alarm, Host, HostFault, Hosted, Machine, Plan};
use lambda_wire::read_config;
use long_poll::{Clock, ClockFace, OneShotBell};
use request_guard::KnownHosts;
use socket_peers::{Progress, number};
use std::alloc::{AllocError, Global};
use std::marker::Brand;
use std::sync::atomic::Ordering::SeqCst;
use std::sync::atomic::{AtomicBool, AtomicU64};
use std::sync::{Arc, Mutex, Wait};
use std::thread;
use std::thread::JoinHandle;
use usage_ledger::{Blanks, Keep, KeepAll, Ledgers, Tally};

/// The most connections that a service has at once, unless a step says otherwise.
const PLACES: u32 = 64;

/// The latest moment, in milliseconds.
const LATEST: u64 = (1 << 53) - 1;

/// Returns what a clock shows that reads this.
fn shown(reading: u64, is_running: bool) -> ClockFace
    ensures few { result.now < 2 ^ 53 }
    ensures running { result.is_running ≡ is_running }
{
    ClockFace {
        now: reading.min(LATEST),
        is_running,
    }
}

/// A clock that a check sets, in milliseconds, and a time of day that it also sets. It runs only so, paused or not.
#[derive(Drop)]
struct SetClock {
    board: Arc<Board>,
}

impl Clock for SetClock {
    fn now(&self) -> u64 {
        self.board.moment.load(SeqCst)
    }

    fn lag(&self) -> u64 {
        self.board.day.load(SeqCst).saturating_sub(self.now())
    }

    fn set_forward(&self, by: u64) {
        self.board.moment.fetch_add(by, SeqCst);
    }

    fn face(&self) -> ClockFace {
        shown(self.now(), true)
    }

    fn pause(&self) -> ClockFace {
        shown(self.now(), false)
    }

    fn resume(&self) -> ClockFace {
        shown(self.now(), true)
    }

    fn advance(&self, by: u64) -> Option<ClockFace> {
        let from = shown(self.now(), true).now;
        if by > LATEST - from {
            return None;
        }
        self.board.moment.fetch_add(by, SeqCst);
        Some(shown(from + by, true))
    }
}

/// What a check and its service share.
#[derive(Drop)]
pub struct Board {
    pub moment: AtomicU64,
    pub day: AtomicU64,
    // What wakes the service's ticker, once it listens.
    alarm: Mutex<Option<Arc<Alarm>>>,
    listens: AtomicBool,
    has_ended: AtomicBool,
}

impl Board {
    /// Creates a board whose clock reads this moment, before the service begins.
    fn at(alloc: Global, moment: u64) -> Result<Arc<Board>, AllocError> {
        let board = Board {
            moment: AtomicU64::new(moment),
            day: AtomicU64::new(0),
            alarm: Mutex::new(None),
            listens: AtomicBool::new(false),
            has_ended: AtomicBool::new(false),
        };
        Ok(Arc::new(alloc, board)?)
    }

    /// Wakes the service's ticker, which rests until its clock reads what is due.
    pub fn wake(&self, rt: &impl Wait) {
        if let Some(alarm) = &*self.alarm.lock(rt) {
            alarm.ring();
        }
    }
}

/// How a service is opened and settled.
#[derive(Clone, Copy)]
pub struct Terms {
    /// The most connections at once.
    places: u32,
    /// How long an Invoke that comes too early is held back, in milliseconds.
    patience: u32,
    /// Whether a tally is missing when the account is settled.
    holds_back: bool,
}

impl Terms {
    /// Returns the terms that hold unless a step says otherwise.
    pub fn new() -> Terms {
        Terms {
            places: PLACES,
            patience: 0,
            holds_back: false,
        }
    }

    /// Sets a term, from now on, as a step says.
    pub fn set(&mut self, part: &Part) -> Result<Progress, CaseFault> {
        match part.word() {
            "places" => self.places = number(part, part.arguments())?,
            "patience" => self.patience = number(part, part.arguments())?,
            _ => self.holds_back = true,
        }
        Ok(Progress::On)
    }
}

/// What is served.
#[derive(Drop)]
pub struct Order {
    /// The text of the configuration.
    pub config: String,
    /// How the service is opened.
    pub terms: Terms,
}

/// What a service left: the number of entries, the numbers of calls and receipts that its tallies
/// keep, and the counts that its account settled with.
#[derive(Clone, Copy)]
pub struct Left {
    pub entries: u64,
    pub calls: u64,
    pub receipts: u64,
    pub settled: Result<Stats, SettleFault>,
}

/// Drops the first tally that had a call made in its steps.
fn hold_one_back<K: Keep, L: Ledgers>(tallies: &mut Vec<Tally<K, L>>) {
    for place in 0..tallies.len() {
        if !tallies[place].calls().is_empty() {
            let _ = tallies.swap_remove(place);
            return;
        }
    }
}

/// Counts the calls and the receipts that these tallies keep.
fn count<K: Keep, L: Ledgers>(tallies: &[Tally<K, L>]) -> (u64, u64) {
    let mut calls = 0u64;
    let mut receipts = 0u64;
    for tally in tallies {
        calls = calls.saturating_add(tally.calls().len() as u64);
        receipts = receipts.saturating_add(tally.kept().len() as u64);
    }
    (calls, receipts)
}

/// Returns the counts with which an account settles.
fn settled_by<S: Identity>(
    account: Account<S, OneShotBell>,
    tallies: Vec<Tally<KeepAll, S>>,
) -> Result<Stats, SettleFault> {
    match account.settle(tallies) {
        Ok((settled, _)) => Ok(settled.stats),
        Err(unsettled) => Err(unsettled.fault),
    }
}

/// Returns what a host left that ran to its end.
fn left_by<R: Machine, S: Identity + Drop>(
    rt: &R,
    hosted: Hosted<S, KeepAll>,
    holds_back: bool,
) -> Left {
    let Hosted {
        account,
        mut tallies,
    } = hosted;
    let mut token = account.token(rt);
    let entries = account.stats(rt, &mut token).entries;
    if holds_back {
        hold_one_back(&mut tallies);
    }
    let (calls, receipts) = count(tallies.as_slice());
    Left {
        entries,
        calls,
        receipts,
        settled: settled_by(account, tallies),
    }
}

/// Runs a host to its end, and settles its account.
fn run_host<R: Machine, S: Identity + Drop + Send + Sync + 'static>(
    rt: &R,
    host: Host<R, S, SetClock, KeepAll>,
    holds_back: bool,
) -> Result<Left, HostFault> {
    match host.run() {
        Ok(hosted) => Ok(left_by(rt, hosted, holds_back)),
        Err(fault) => Err(fault),
    }
}

/// Opens a host, runs it to its end, and settles its account.
fn run<R: Machine, S: Identity + Drop + Send + Sync + 'static>(
    rt: R,
    plan: Plan,
    terms: Terms,
    clock: SetClock,
    board: &Board,
    blanks: Blanks,
) -> Result<Left, HostFault>
    requires configured { arc_value plan.config ≡ S.config }
    requires salted { plan.salt ≡ S.salt }
    requires limited { plan.max_entries ≡ S.most }
    requires named { blanks ≡ S.names }
{
    let opened: Result<Host<R, S, SetClock, KeepAll>, HostFault> = Host::open(
        rt,
        plan,
        clock,
        KnownHosts::none(rt.alloc()),
        terms.places,
        terms.patience,
        blanks,
    );
    match opened {
        Ok(host) => {
            *board.alarm.lock(&rt) = Some(host.alarm()?);
            board.listens.store(true, SeqCst);
            run_host(&rt, host, terms.holds_back)
        }
        Err(fault) => Err(fault),
    }
}

/// Reads from a text what to serve.
fn plan_of(alloc: Global, text: &str) -> Result<Plan, HostFault> {
    match read_config(alloc, text.as_bytes()) {
        Ok(setup) => Plan::check(alloc, setup),
        Err(_) => Err(HostFault::OutOfMemory),
    }
}

/// Serves with this clock until it is stopped, and settles.
fn serve<R: Machine>(
    rt: R,
    order: &Order,
    clock: SetClock,
    board: &Board,
) -> Result<Left, HostFault> {
    let blanks = Blanks::new(rt.alloc())?;
    let plan = plan_of(rt.alloc(), order.config.as_str())?;
    run::<R, Brand>(rt, plan, order.terms, clock, board, blanks)
}

/// Serves, and notes on the board that it has ended.
fn serve_to_end<R: Machine>(
    rt: R,
    order: &Order,
    clock: SetClock,
    board: &Board,
) -> Result<Left, HostFault> {
    let left = serve(rt, order, clock, board);
    board.has_ended.store(true, SeqCst);
    left
}

/// A service on its own thread.
#[derive(Drop)]
pub struct Server {
    pub board: Arc<Board>,
    thread: JoinHandle<Result<Left, HostFault>>,
}

impl Server {
    /// Starts a service, with its clock at this moment.
    pub fn start<R: Machine>(rt: R, order: Order, moment: u64) -> Result<Server, AllocError> {
        let board = Board::at(rt.alloc(), moment)?;
        let told = Arc::try_clone(&board)?;
        let clock = SetClock {
            board: Arc::try_clone(&board)?,
        };
        let thread = thread::spawn(&rt, move || serve_to_end(rt, &order, clock, &told))?;
        Ok(Server { board, thread })
    }

    /// Whether the service listens on its ports.
    pub fn listens(&self) -> bool {
        self.board.listens.load(SeqCst)
    }

    /// Whether the service has ended.
    pub fn has_ended(&self) -> bool {
        self.board.has_ended.load(SeqCst)
    }

    /// Returns what the service left, once it has ended.
    pub fn join<R: Machine>(self, rt: &R) -> Result<Left, HostFault> {
        self.thread.join(rt)
    }
}

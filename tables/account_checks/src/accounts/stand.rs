//! An account and its tallies, as cases see them.

use crate::accounts::bells::Numbered;
use crate::accounts::forging::Forgery;
use crate::accounts::places::{Question, Said, Taken};
use crate::tallies::{Seat, SeatFault};
use account_lock::SettleFault;
use call_model::Stats;

/// The outcome of a settlement.
#[derive(Clone, Copy)]
pub struct Ending {
    /// The counts, and how many entries the book has.
    pub settled: Result<(Stats, u64), SettleFault>,
    /// The parts of the tally that was held back.
    pub held_back: Option<u64>,
}

/// The lines of a crowd: each of its four threads makes the calls of all lines a number of times.
#[derive(Clone, Copy)]
pub struct Turns<'a> {
    pub count: u64,
    pub lines: &'a str,
    /// The number of the first line in its file.
    pub first: u64,
}

/// An account and its tallies. Tally 0 has all parts that no other tally has.
pub trait Stand: Drop {
    /// Creates the tally with this number, unless it is there.
    fn make_seat(&mut self, seat: usize) -> Result<(), SeatFault>;

    /// Returns what is seen of a tally.
    fn seat(&self, seat: usize) -> Option<Seat<'_>>;

    /// Submits the call of a line with a tally.
    fn take(&mut self, seat: usize, line: &[u8], bell: Numbered) -> Result<Taken, SeatFault>;

    /// Asks the account.
    fn ask(&mut self, question: Question) -> Said;

    /// Joins tallies 1 and 2.
    fn join(&mut self) -> Result<(), SeatFault>;

    /// Holds tally 1 back from the settlement.
    fn hold_back(&mut self) -> Result<(), SeatFault>;

    /// Forges what tally 1 keeps: another tally keeps it instead, and tally 0 takes over its share.
    fn forge(&mut self, forgery: Forgery) -> Result<(), SeatFault>;

    /// Settles the account.
    fn settle(self) -> Ending;
}

//! An account with its tallies.

use crate::accounts::bells::{Bells, Numbered};
use crate::accounts::crowds::crowd_of;
use crate::accounts::forging::{Forgery, Kept};
use crate::accounts::places::{Opened, Place, Question, Said, Taken, Way};
use crate::accounts::stand::{Ending, Stand, Turns};
use crate::tallies::{
    Seat, SeatFault, first_of, join_next, note_calls, note_receipts, part_of, seat_at, split_off,
    taken_out,
};
use account_lock::{Account, Identity, SettleFault, Settled};
use call_model::Stats;
use case_tables::CaseFault;
use std::alloc::{AllocError, Global};
use std::sync::Wait;
use std::thread::Threads;
use usage_ledger::{Keep, Ledgers, Tally, Token};

/// An account with its tallies, the one that is held back, and the token that questions to the
/// account use: each call that is taken gives a new one.
#[derive(Drop)]
pub struct Seats<R, S: Identity, K: Keep> {
    place: Place<R, S>,
    token: Token<S>,
    tallies: Vec<Tally<K, S>>,
    held_back: Option<Tally<K, S>>,
    way: Way,
}

/// Returns what a tally keeps, forged.
fn forged_of<K: Keep, L: Ledgers>(
    alloc: Global,
    tally: Option<&Tally<K, L>>,
    forgery: Forgery,
) -> Result<Kept, SeatFault> {
    let Some(tally) = tally else {
        return Err(SeatFault::NoTally);
    };
    let Ok(kept) = Kept::copy(alloc, tally.kept(), tally.calls()) else {
        return Err(SeatFault::Memory);
    };
    let mut kept = kept;
    kept.forge(forgery);
    Ok(kept)
}

/// Returns a part of a tally, with these receipts and calls noted.
fn part_with<K: Keep, L: Ledgers>(
    root: Option<&mut Tally<K, L>>,
    kept: &Kept,
) -> Result<Tally<K, L>, SeatFault> {
    let mut part = part_of(root)?;
    note_receipts(&mut part, kept.receipts.as_slice())?;
    note_calls(&mut part, kept.calls.as_slice())?;
    Ok(part)
}

/// Returns a part of tally 0 that keeps what tally 1 does, forged.
fn forged_part<K: Keep, L: Ledgers>(
    alloc: Global,
    tallies: &mut Vec<Tally<K, L>>,
    forgery: Forgery,
) -> Result<Tally<K, L>, SeatFault> {
    let kept = forged_of(alloc, tallies.get(1), forgery)?;
    part_with(tallies.first_mut(), &kept)
}

/// Puts a tally in place of tally 1; tally 0 takes over the share of the old one.
fn replace_second<K: Keep, L: Ledgers>(
    tallies: &mut Vec<Tally<K, L>>,
    forged: Tally<K, L>,
) -> Result<(), SeatFault> {
    let honest = taken_out(tallies, 1)?;
    if let Some(root) = tallies.first_mut() {
        root.absorb(honest);
    }
    tallies.push_reserved(forged);
    Ok(())
}

/// Returns the counts that were settled.
fn counts_of<K: Keep, L: Ledgers>(settled: &Settled<K, L>) -> (Stats, u64) {
    (settled.stats, settled.book.len())
}

/// Returns the parts of a tally, if there is one.
fn parts_in<K: Keep, L: Ledgers>(tally: &Option<Tally<K, L>>) -> Option<u64> {
    match tally {
        Some(tally) => Some(tally.parts()),
        None => None,
    }
}

/// Settles an account, and returns the counts.
fn settle_account<S: Identity, K: Keep>(
    account: Account<S, Numbered>,
    tallies: Vec<Tally<K, S>>,
) -> Result<(Stats, u64), SettleFault> {
    match account.settle(tallies) {
        Ok((settled, _)) => Ok(counts_of(&settled)),
        Err(unsettled) => Err(unsettled.fault),
    }
}

/// Settles a desk, and returns the counts.
fn settle_desk<S: Identity, K: Keep>(
    account: Account<S, Numbered>,
    tallies: Vec<Tally<K, S>>,
) -> Result<(Stats, u64), SettleFault> {
    let (desk, _) = account.into_desk();
    match desk.settle(tallies) {
        Ok(settled) => Ok(counts_of(&settled)),
        Err(fault) => Err(fault),
    }
}

impl<R: Wait + Drop, S: Identity + Drop, K: Keep> Seats<R, S, K> {
    /// Opens an account with its first tally.
    pub fn new(opened: Opened<R, S, K>, way: Way) -> Result<Seats<R, S, K>, AllocError> {
        let Opened { place, root } = opened;
        let tallies = first_of(place.alloc, root)?;
        Ok(Seats {
            token: place.account.token(&place.rt),
            place,
            tallies,
            held_back: None,
            way,
        })
    }
}

/// Makes the calls of four threads at the same time, each with its own tally.
pub fn crowd<R: Wait + Threads + Sync, S: Identity + Send + Sync, K: Keep + Send + Sync>(
    seats: &mut Seats<R, S, K>,
    bells: &Bells,
    turns: Turns<'_>,
) -> Result<(), CaseFault> {
    crowd_of(&seats.place, &mut seats.tallies, bells, turns)
}

impl<R: Wait + Drop, S: Identity + Drop, K: Keep> Stand for Seats<R, S, K> {
    fn make_seat(&mut self, seat: usize) -> Result<(), SeatFault> {
        for _ in self.tallies.len()..seat.saturating_add(1) {
            split_off(&mut self.tallies, 0)?;
        }
        Ok(())
    }

    fn seat(&self, seat: usize) -> Option<Seat<'_>> {
        seat_at(self.tallies.as_slice(), seat)
    }

    fn take(&mut self, seat: usize, line: &[u8], bell: Numbered) -> Result<Taken, SeatFault> {
        match self.tallies.get_mut(seat) {
            None => Err(SeatFault::NoTally),
            Some(tally) => Ok(self.place.submit(tally, &mut self.token, line, bell)),
        }
    }

    fn ask(&mut self, question: Question) -> Said {
        self.place.ask(&mut self.token, question)
    }

    fn join(&mut self) -> Result<(), SeatFault> {
        join_next(&mut self.tallies, 1)
    }

    fn hold_back(&mut self) -> Result<(), SeatFault> {
        self.held_back = Some(taken_out(&mut self.tallies, 1)?);
        Ok(())
    }

    fn forge(&mut self, forgery: Forgery) -> Result<(), SeatFault> {
        let forged = forged_part(self.place.alloc, &mut self.tallies, forgery)?;
        replace_second(&mut self.tallies, forged)
    }

    fn settle(self) -> Ending {
        let Seats {
            place,
            tallies,
            held_back,
            way,
            ..
        } = self;
        let settled = match way {
            Way::Account => settle_account(place.account, tallies),
            Way::Desk => settle_desk(place.account, tallies),
        };
        Ending {
            settled,
            held_back: parts_in(&held_back),
        }
    }
}

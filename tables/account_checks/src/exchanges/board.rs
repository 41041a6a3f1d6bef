//! A service that is not an account, and behaves as a case says.

use account_book::Refusal;
use account_lock::{Account, Bell, Identity, Look, NotTaken, Refused, Ringer};
use arn_ids::FnNo;
use call_model::{Answer, Call, Stats, Ticket};
use case_tables::Given;
use lambda_wire::{Reply, fault_reply};
use long_poll::{OneShotBell, Service};
use script::Draft;
use std::alloc::{AllocError, Global};
use std::sync::Wait;
use std::sync::atomic::AtomicU64;
use std::sync::atomic::Ordering::SeqCst;
use usage_ledger::{Anchor, KeepNone, Tally, Token};

/// The ticket of each call that is taken.
const TICKET: Ticket = 7;

/// How the service treats calls.
#[derive(Clone, Copy)]
pub enum Mood {
    /// They are refused.
    Refuses,
    /// They wait, and their bells are lost.
    LosesBells,
    /// The first calls, up to this number, are premature; the others are answered.
    Answers(u64),
}

/// Counts the calls, and notes the moment of the last. Its tokens are those of an account that
/// takes no calls.
#[derive(Drop)]
pub struct Board<S: Identity> {
    alloc: Global,
    mood: Mood,
    attempts: AtomicU64,
    submitted: AtomicU64,
    last: AtomicU64,
    account: Account<S, OneShotBell>,
}

impl<S: Identity> Board<S> {
    /// Creates a board that no call has reached.
    pub fn new(alloc: Global, mood: Mood, account: Account<S, OneShotBell>) -> Board<S> {
        Board {
            alloc,
            mood,
            attempts: AtomicU64::new(0),
            submitted: AtomicU64::new(0),
            last: AtomicU64::new(0),
            account,
        }
    }

    /// Adds the calls that came.
    pub fn push_noted(&self, given: &mut Given) {
        given.print(&self.attempts.load(SeqCst));
        given.push(" attempted, ");
        given.print(&self.submitted.load(SeqCst));
        given.push(" submitted, the last at ");
        given.print(&self.last.load(SeqCst));
        given.push("\n");
    }

    /// Makes a text without a body.
    fn text(&self, text: &str) -> Result<Draft, AllocError> {
        Ok(Draft::of(
            self.alloc,
            String::from_str(self.alloc, text)?.into_bytes(),
        ))
    }

    /// Takes a call, or refuses it.
    fn take<R: Wait>(
        &self,
        rt: &R,
        now: u64,
        bell: Option<OneShotBell>,
    ) -> Result<(Ticket, Token<S>), Refused<OneShotBell>> {
        self.last.store(now, SeqCst);
        if let Mood::Refuses = self.mood {
            let refusal = Refusal::JournalFull;
            return Err(Refused { refusal, bell });
        }
        if let Some(bell) = bell {
            if let Mood::Answers(_) = self.mood {
                bell.ring();
            }
        }
        Ok((TICKET, self.account.token(rt)))
    }
}

impl<S: Identity> Service<KeepNone> for Board<S> {
    type Ledgers = S;

    type Trail = Ticket;

    ghost serves = { λ _. S.config };

    ghost submits = { λ _ _ _ _ _ _ _ _ _. Unit {0} };

    ghost looks = { λ _ _ _ _ _. Unit {0} };

    ghost renders = { λ _ _ _ _ _. Unit {0} };

    ghost opens = { λ _ _. Unit {0} };

    ghost tells = { λ _ _ _ _ _. Unit {0} };

    ghost begins = { λ _ _ _. Unit {0} };

    ghost traces = { λ _ _ _ _ _. Unit {0} };

    ghost passes = { λ _ _ _ _. Unit {0} };

    ghost closes = { λ _ _ _ _. Unit {0} };

    ghost lists = { λ _ _ _ _. Unit {0} };

    ghost counts = { λ _ _ _ _. Unit {0} };

    ghost reserves = { λ _ _ _ _ _. Unit {0} };

    fn submit<R: Wait>(
        &self,
        rt: &R,
        _tally: &mut Tally<KeepNone, S>,
        _token: &mut Token<S>,
        now: u64,
        _call: Call,
        bell: Option<OneShotBell>,
        _ringer: &impl Ringer<OneShotBell>,
    ) -> Result<(Ticket, Token<S>), Refused<OneShotBell>> {
        self.submitted.fetch_add(1, SeqCst);
        self.take(rt, now, bell)
    }

    fn submit_unless_premature<R: Wait>(
        &self,
        rt: &R,
        _tally: &mut Tally<KeepNone, S>,
        _token: &mut Token<S>,
        now: u64,
        call: Call,
        bell: Option<OneShotBell>,
        _ringer: &impl Ringer<OneShotBell>,
    ) -> Result<(Ticket, Token<S>), NotTaken<OneShotBell>> {
        let before = self.attempts.fetch_add(1, SeqCst);
        if matches!(self.mood, Mood::Answers(count) if before < count) {
            return Err(NotTaken::Premature { call, bell });
        }
        match self.take(rt, now, bell) {
            Ok(taken) => Ok(taken),
            Err(refused) => Err(NotTaken::Refused(refused)),
        }
    }

    fn anchor(&self, token: &mut Token<S>) -> Anchor<S> {
        self.account.anchor(token)
    }

    fn from_anchor<R: Wait>(&self, rt: &R, anchor: &Anchor<S>) -> Token<S> {
        self.account.from_anchor(rt, anchor)
    }

    fn again(&self, token: &mut Token<S>) -> Token<S> {
        self.account.again(token)
    }

    fn look<R: Wait>(&self, _rt: &R, _token: &mut Token<S>, _ticket: Ticket) -> Look {
        match self.mood {
            Mood::Answers(_) => Look::Given(Answer::Done),
            _ => Look::Waiting,
        }
    }

    fn render<R: Wait>(
        &self,
        _rt: &R,
        _token: &mut Token<S>,
        ticket: Ticket,
    ) -> Result<Option<Reply>, AllocError> {
        match self.mood {
            Mood::Answers(_) if ticket == TICKET => Ok(Some(fault_reply(
                self.alloc, 200, "done", "Done",
            )?)),
            _ => Ok(None),
        }
    }

    fn opening<R: Wait>(&self, _rt: &R) -> Result<Vec<u8>, AllocError> {
        Ok(String::from_str(self.alloc, "a board\n")?.into_bytes())
    }

    fn history<R: Wait>(
        &self,
        _rt: &R,
        _token: &mut Token<S>,
        ticket: Ticket,
    ) -> Result<Option<Draft>, AllocError> {
        match ticket {
            0 | 1 => Ok(Some(self.text("an entry\n")?)),
            _ => Ok(None),
        }
    }

    fn trail<R: Wait>(
        &self,
        _rt: &R,
        _alloc: Global,
        _token: &mut Token<S>,
    ) -> Result<Ticket, AllocError> {
        Ok(0)
    }

    fn trace<R: Wait>(
        &self,
        rt: &R,
        trail: &mut Ticket,
        _bodies: bool,
    ) -> Result<Option<Draft>, AllocError> {
        if self.pass(rt, trail) {
            return Ok(Some(self.text("{\"an\":\"entry\"}\n")?));
        }
        Ok(None)
    }

    fn pass<R: Wait>(&self, _rt: &R, trail: &mut Ticket) -> bool {
        let is_there = *trail < 2;
        *trail += u64::from(is_there);
        is_there
    }

    fn is_off<R: Wait>(&self, _rt: &R, _trail: &mut Ticket) -> bool {
        true
    }

    fn environments<R: Wait>(&self, _rt: &R, _token: &mut Token<S>) -> Result<Vec<u8>, AllocError> {
        Ok(String::from_str(self.alloc, "{\"environments\":[]}")?.into_bytes())
    }

    fn stats<R: Wait>(&self, _rt: &R, _token: &mut Token<S>) -> Stats {
        Stats {
            entries: 1,
            admitted: 2,
            throttled: 3,
            failed: 4,
            in_flight: 5,
        }
    }

    fn reservation<R: Wait>(&self, _rt: &R, _token: &mut Token<S>, _function: FnNo) -> Option<u32> {
        Some(6)
    }
}

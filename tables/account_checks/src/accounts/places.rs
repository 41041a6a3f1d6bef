//! Accounts that take lines of scripts.

ghost use Rattle.std.specs.Prelude.{◌≡◌, ◌^◌};
ghost use Rattle.std.specs.Arc.{arc_value};

use crate::accounts::bells::Numbered;
use crate::opening::Opening;
use account_book::{Book, Life, OpenFault, Refusal};
use account_lock::{Account, AtOnce, Desk, Identity, Look, Refused};
use arn_ids::{Checked, FnNo};
use call_model::{Stats, Ticket};
use lambda_wire::Reply;
use script::{Draft, read_call};
use std::alloc::{AllocError, Global};
use std::sync::{Arc, Wait};
use usage_ledger::{Blanks, Keep, Tally, Token, root};

/// The outcome of a line.
#[derive(Clone, Copy)]
pub enum Taken {
    /// The call of the line has this ticket.
    At(Ticket),
    /// The journal is full, and the call's bell came back.
    Full,
    /// The journal is full, and the call's bell is gone.
    BellGone,
    /// The line stands for no call.
    NoCall,
    /// An allocation failed.
    NoMemory,
}

/// A question to an account.
#[derive(Clone, Copy)]
pub enum Question {
    Look(Ticket),
    Due(u64),
    Life,
    Stats,
    Reservation(FnNo),
    Render(Ticket),
    Environments,
    Opening,
    History(Ticket),
}

/// An account's answer.
#[derive(Drop)]
pub enum Said {
    Look(Look),
    Due(bool),
    Life(Life),
    Stats(Stats),
    Reservation(Option<u32>),
    Reply(Result<Option<Reply>, AllocError>),
    /// A text: that of the environments, or of the opening.
    Text(Result<Vec<u8>, AllocError>),
    Entry(Result<Option<Vec<u8>>, AllocError>),
    /// The configuration has no such function.
    NoFunction,
}

/// An account, and its configuration, by which the lines of its calls are read.
#[derive(Drop)]
pub struct Place<R, S: Identity> {
    pub rt: R,
    pub alloc: Global,
    pub config: Arc<Checked>,
    pub account: Account<S, Numbered>,
    ghost configured: { arc_value config ≡ S.config },
}

/// Returns the outcome of a call that was not taken.
fn untaken(refused: &Refused<Numbered>) -> Taken {
    match (refused.refusal, refused.bell.is_some()) {
        (Refusal::OutOfMemory, _) => Taken::NoMemory,
        (Refusal::JournalFull, true) => Taken::Full,
        (Refusal::JournalFull, false) => Taken::BellGone,
    }
}

/// Takes the text of an entry, if there is one, piece by piece.
fn taken(draft: Result<Option<Draft>, AllocError>) -> Result<Option<Vec<u8>>, AllocError> {
    let Some(mut draft) = draft? else {
        return Ok(None);
    };
    let mut text = draft.take()?;
    while !draft.is_over() {
        let piece = draft.take()?;
        text.extend_from_slice(piece.as_slice())?;
    }
    Ok(Some(text))
}

impl<R: Wait, S: Identity> Place<R, S> {
    /// Submits the call of a line with a tally and a bell, which comes back if the call is refused.
    /// The token has then seen the history.
    fn submit_once<K: Keep>(
        &self,
        tally: &mut Tally<K, S>,
        token: &mut Token<S>,
        line: &[u8],
        bell: Option<Numbered>,
    ) -> Result<Taken, Refused<Numbered>> {
        let Ok(read) = read_call(self.alloc, &self.config, true, line) else {
            return Err(Refused {
                refusal: Refusal::OutOfMemory,
                bell,
            });
        };
        let Some((now, call)) = read else {
            return Ok(Taken::NoCall);
        };
        match self.account.submit(&self.rt, tally, token, now, call, bell, &AtOnce) {
            Ok((ticket, _)) => Ok(Taken::At(ticket)),
            Err(refused) => Err(refused),
        }
    }

    /// Submits the call of a line with a bell and a tally. If an allocation fails, which leaves
    /// account and tally unchanged, submits it once more, with the bell that came back. The token
    /// has then seen the history.
    pub fn submit<K: Keep>(
        &self,
        tally: &mut Tally<K, S>,
        token: &mut Token<S>,
        line: &[u8],
        bell: Numbered,
    ) -> Taken {
        match self.submit_once(tally, token, line, Some(bell)) {
            Ok(taken) => taken,
            Err(refused) => self.submit_again(tally, token, line, refused),
        }
    }

    /// Submits the call of a line once more if an allocation failed; returns the outcome of the
    /// last try.
    fn submit_again<K: Keep>(
        &self,
        tally: &mut Tally<K, S>,
        token: &mut Token<S>,
        line: &[u8],
        refused: Refused<Numbered>,
    ) -> Taken {
        if refused.refusal != Refusal::OutOfMemory {
            return untaken(&refused);
        }
        match self.submit_once(tally, token, line, refused.bell) {
            Ok(taken) => taken,
            Err(refused) => untaken(&refused),
        }
    }

    /// Returns the reservation of a function.
    fn reservation(&self, token: &mut Token<S>, function: FnNo) -> Said {
        if function < 1 || function as usize > self.config.functions().len() {
            return Said::NoFunction;
        }
        Said::Reservation(self.account.reservation(&self.rt, token, function))
    }

    /// Asks the account with a token, which has then seen the history that was read.
    pub fn ask(&self, token: &mut Token<S>, question: Question) -> Said {
        let (rt, account) = (&self.rt, &self.account);
        match question {
            Question::Look(ticket) => Said::Look(account.look(rt, token, ticket)),
            Question::Due(now) => Said::Due(account.due(rt, token, now)),
            Question::Life => Said::Life(account.life(rt, token)),
            Question::Stats => Said::Stats(account.stats(rt, token)),
            Question::Reservation(function) => self.reservation(token, function),
            Question::Render(ticket) => Said::Reply(account.render(rt, token, ticket)),
            Question::Environments => Said::Text(account.environments(rt, token)),
            Question::Opening => Said::Text(account.opening(rt)),
            Question::History(ticket) => Said::Entry(taken(account.history(rt, token, ticket))),
        }
    }
}

/// An account, and the tally that has all parts.
#[derive(Drop)]
pub struct Opened<R, S: Identity, K: Keep> {
    pub place: Place<R, S>,
    pub root: Tally<K, S>,
}

/// Whether a case runs on an account or on a desk.
#[derive(Clone, Copy)]
pub enum Way {
    Account,
    Desk,
}

/// An account, and its first tally.
type Begun<S, K> = (Account<S, Numbered>, Tally<K, S>);

/// Opens a desk, and puts it behind a lock.
fn open_desk<S: Identity, K: Keep>(
    alloc: Global,
    config: Arc<Checked>,
    salt: u64,
    max_entries: u64,
    blanks: Blanks,
) -> Result<Begun<S, K>, OpenFault>
    requires configured { arc_value config ≡ S.config }
    requires salted { salt ≡ S.salt }
    requires limited { max_entries ≡ S.most }
    requires named { blanks ≡ S.names }
{
    let book = match Book::open(alloc, config, salt, max_entries) {
        Ok(book) => book,
        Err(fault) => return Err(fault),
    };
    let start = root(alloc, blanks);
    let desk = Desk::open(alloc, book, start.totals);
    Ok((Account::share(desk, start.spine, start.pen), start.tally))
}

/// Opens an account or a desk.
pub fn open<R: Drop, S: Identity, K: Keep>(
    rt: R,
    alloc: Global,
    way: Way,
    opening: Opening,
    blanks: Blanks,
) -> Result<Opened<R, S, K>, OpenFault>
    requires configured { arc_value opening.config ≡ S.config }
    requires salted { opening.salt ≡ S.salt }
    requires limited { opening.max_entries ≡ S.most }
    requires named { blanks ≡ S.names }
{
    let Opening {
        config,
        beside,
        salt,
        max_entries,
    } = opening;
    let begun = match way {
        Way::Account => Account::open(alloc, config, salt, max_entries, blanks),
        Way::Desk => open_desk(alloc, config, salt, max_entries, blanks),
    };
    let (account, root) = match begun {
        Ok(begun) => begun,
        Err(fault) => return Err(fault),
    };
    Ok(Opened {
        place: Place {
            rt,
            alloc,
            config: beside,
            account,
        },
        root,
    })
}

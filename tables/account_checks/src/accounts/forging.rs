//! What a tally keeps, and ways to forge it.

use call_model::{Answer, Head, Ticket};
use std::alloc::{AllocError, Global};

/// The receipts and the calls that a tally keeps.
#[derive(Drop)]
pub struct Kept {
    pub receipts: Vec<(Ticket, Answer)>,
    pub calls: Vec<(Ticket, Head)>,
}

/// A way to forge what is kept.
#[derive(Clone, Copy)]
pub enum Forgery {
    /// The receipt of ticket 0 has another answer.
    AnotherAnswer,
    /// The receipt of ticket 0 is gone.
    NoReceipt,
    /// The call of ticket 0 has another head.
    AnotherHead,
    /// The calls are in reverse order.
    Backwards,
    /// The call of ticket 0 is gone.
    NoCall,
    /// The first call is repeated in place of the second.
    Twice,
}

/// The forgeries, by their names.
pub const FORGERIES: [(&str, Forgery); 6] = [
    ("another-answer", Forgery::AnotherAnswer),
    ("no-receipt", Forgery::NoReceipt),
    ("another-head", Forgery::AnotherHead),
    ("backwards", Forgery::Backwards),
    ("no-call", Forgery::NoCall),
    ("twice", Forgery::Twice),
];

impl Kept {
    /// Copies receipts and calls.
    pub fn copy(
        alloc: Global,
        receipts: &[(Ticket, Answer)],
        calls: &[(Ticket, Head)],
    ) -> Result<Kept, AllocError> {
        Ok(Kept {
            receipts: Vec::from_slice(alloc, receipts)?,
            calls: Vec::from_slice(alloc, calls)?,
        })
    }

    /// Gives the receipt of ticket 0 another answer.
    fn change_answer(&mut self) {
        for receipt in self.receipts.iter_mut() {
            if receipt.0 == 0 {
                receipt.1 = Answer::Done;
            }
        }
    }

    /// Gives the call of ticket 0 the head of another environment.
    fn change_head(&mut self) {
        for call in self.calls.iter_mut() {
            if call.0 == 0 {
                call.1.number = 2;
            }
        }
    }

    /// Puts the first call in place of the second.
    fn repeat_first_call(&mut self) {
        let first = self.calls.first().copied();
        if let (Some(first), Some(second)) = (first, self.calls.get_mut(1)) {
            *second = first;
        }
    }

    /// Forges what is kept.
    pub fn forge(&mut self, forgery: Forgery) {
        match forgery {
            Forgery::AnotherAnswer => self.change_answer(),
            Forgery::NoReceipt => self.receipts.retain(|receipt| receipt.0 != 0),
            Forgery::AnotherHead => self.change_head(),
            Forgery::Backwards => self.calls.reverse(),
            Forgery::NoCall => self.calls.retain(|call| call.0 != 0),
            Forgery::Twice => self.repeat_first_call(),
        }
    }
}

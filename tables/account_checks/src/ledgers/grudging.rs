//! A way to keep that refuses room now and then, for tests.

use call_model::{Answer, Head, Ticket};
use std::alloc::{AllocError, Global};
use usage_ledger::Keep;

/// Keeps everything, but refuses every other request for room, starting with the first.
#[derive(Drop)]
pub(crate) struct KeepGrudging {
    receipts: Vec<(Ticket, Answer)>,
    heads: Vec<(Ticket, Head)>,
    refuses: bool,
}

impl Keep for KeepGrudging {
    ghost use Rattle.std.specs.Prelude.{◌≡◌, ◌-◌, true, vec_len, vec_capacity};
    ghost use Rattle.usage_ledger.specs.Keeping.{kept, with_receipt, with_call};

    ghost holds = { λ keep. kept keep.receipts.items keep.heads.items };

    ghost spare_notes = { λ keep. vec_capacity keep.receipts - vec_len keep.receipts };

    ghost spare_calls = { λ keep. vec_capacity keep.heads - vec_len keep.heads };

    ghost notes = { λ old ticket answer new. new ≡ with_receipt old ticket answer };

    ghost makes = { λ old ticket head new. new ≡ with_call old ticket head };

    ghost may_refuse = { true };

    ghost ALL = { true };

    const ALL: bool = true;

    fn empty(alloc: Global) -> KeepGrudging {
        KeepGrudging {
            receipts: Vec::new(alloc),
            heads: Vec::new(alloc),
            refuses: true,
        }
    }

    fn room(&mut self, n: usize) -> Result<(), AllocError> {
        self.refuses = !self.refuses;
        if !self.refuses {
            return Err(AllocError);
        }
        self.receipts.reserve(n)?;
        self.heads.reserve(n)
    }

    fn note(&mut self, ticket: Ticket, answer: Answer) {
        self.receipts.push_reserved((ticket, answer));
    }

    fn made(&mut self, ticket: Ticket, head: Head) {
        self.heads.push_reserved((ticket, head));
    }

    fn kept(&self) -> &[(Ticket, Answer)] {
        &self.receipts
    }

    fn calls(&self) -> &[(Ticket, Head)] {
        &self.heads
    }
}

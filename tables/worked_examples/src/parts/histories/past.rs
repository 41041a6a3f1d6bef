//! Entries, with the counts in their request identifiers.

ghost use Rattle.std.specs.Prelude.{◌≡◌, ◌+◌, ◌^◌, ◌<◌, ◌≤◌, ◌∷◌, length, reverse};
ghost use Rattle.std.specs.List.{count_by};
ghost use Rattle.call_model.specs.History.{is_invoke_of};
ghost use Rattle.call_model.specs.CallCounts.{call_counts, request_count};

use arn_ids::{Checked, FnNo};
use call_model::{Call, Entry, Past};
use entry_blocks::Blocks;
use std::alloc::{AllocError, Global};
use std::marker::Model;

/// Entries, the oldest first, each with the count in its request identifier, or 0 if it is not an
/// Invoke.
#[derive(Drop)]
pub struct Recorded {
    entries: Blocks<Entry>,
    counts: Blocks<u64>,
}

impl Model for Recorded {
    ghost use Rattle.std.specs.Prelude.{◌≡◌, List, reverse};
    ghost use Rattle.call_types.specs.declared.call.Entry.{Entry as TheEntry};
    ghost use Rattle.call_model.specs.CallCounts.{call_counts};

    ghost Value = { List TheEntry };

    ghost view = { λ p. p.entries.0 };

    ghost invariant = { λ p. reverse p.counts.0 ≡ call_counts (reverse p.entries.0) };
}

fn invokes(call: &Call, function: FnNo) -> bool
    ensures { result ≡ is_invoke_of function call.now }
{
    match call {
        Call::Invoke {
            function: other,
            ..
        } => *other == function,
        _ => false,
    }
}

/// Counts the entries that invoke a function.
fn count_of(entries: &Blocks<Entry>, function: FnNo) -> u64
    ensures value { result ≡ count_by (λ entry. is_invoke_of function entry.call) entries.now.0 }
    ensures few { result ≤ length entries.now.0 }
{
    let mut count = 0;
    for number in 0..entries.len() {
        if invokes(&entries.at(number).call, function) {
            count += 1;
        }
    }
    count
}

/// Returns the count of an entry that follows these.
#[tactic(auto, using(crate::proofs::Counting::one_more, crate::proofs::Counting::count_reversed))]
fn next_count(entries: &Blocks<Entry>, entry: &Entry) -> u64
    requires { length entries.now.0 + 1 < 2 ^ 64 }
    ensures { result ≡ request_count (entry.now ∷ reverse entries.now.0) entry.now.call }
{
    match &entry.call {
        Call::Invoke { function, .. } => count_of(entries, *function) + 1,
        _ => 0,
    }
}

impl Recorded {
    /// Returns no entries.
    pub fn new(alloc: Global) -> Recorded {
        Recorded {
            entries: Blocks::open(alloc),
            counts: Blocks::open(alloc),
        }
    }

    /// Appends an entry.
    pub fn add(&mut self, entry: Entry) -> Result<(), AllocError> {
        self.entries.reserve(1)?;
        self.counts.reserve(1)?;
        if self.entries.len() == usize::MAX {
            return Err(AllocError);
        }
        let count = next_count(&self.entries, &entry);
        self.entries.push(entry);
        self.counts.push(count);
        Ok(())
    }

    /// Returns what is read of them, under a configuration with a salt.
    pub fn read<'a>(&'a self, config: &'a Checked, salt: u64) -> Past<'a>
        ensures { result.entries.now.0 ≡ self.now }
    {
        Past {
            config,
            salt,
            entries: &self.entries,
            counts: &self.counts,
        }
    }
}

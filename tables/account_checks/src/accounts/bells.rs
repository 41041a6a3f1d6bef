//! Bells that record the order in which they rang.

use account_lock::Bell;
use case_tables::CaseFault;
use std::alloc::{AllocError, Global};
use std::sync::Arc;
use std::sync::atomic::{AtomicU64, Ordering};

/// How many bells of one step can be told apart.
const MOST_RINGS: u64 = 9;

/// What was heard of bells.
#[derive(Drop)]
struct Heard {
    /// How many rang in total.
    all: AtomicU64,
    /// How many rang in this step.
    rings: AtomicU64,
    /// Their numbers plus one, seven bits each; the first that rang is in the lowest bits.
    numbers: AtomicU64,
}

/// A bell with a number.
#[derive(Drop)]
pub struct Numbered {
    number: u64,
    heard: Arc<Heard, Global>,
}

/// Returns what the bell with this number adds to `numbers` if `before` bells rang before it.
fn place_of(number: u64, before: u64) -> u64 {
    if before >= MOST_RINGS {
        return 0;
    }
    (number % 100 + 1) << (7 * before)
}

impl Bell for Numbered {
    fn ring(self) {
        self.heard.all.fetch_add(1, Ordering::SeqCst);
        let before = self.heard.rings.fetch_add(1, Ordering::SeqCst);
        self.heard
            .numbers
            .fetch_add(place_of(self.number, before), Ordering::SeqCst);
    }
}

/// Makes bells, numbered from 0 in the order of their creation, and hears them.
#[derive(Drop)]
pub struct Bells {
    next: u64,
    heard: Arc<Heard, Global>,
}

impl Bells {
    /// Creates a maker that has made no bell.
    pub fn new(alloc: Global) -> Result<Bells, AllocError> {
        let heard = Heard {
            all: AtomicU64::new(0),
            rings: AtomicU64::new(0),
            numbers: AtomicU64::new(0),
        };
        Ok(Bells {
            next: 0,
            heard: Arc::new(alloc, heard)?,
        })
    }

    /// Makes a bell.
    pub fn make(&mut self) -> Result<Numbered, CaseFault> {
        let number = self.next;
        self.next = number.wrapping_add(1);
        self.unnumbered(number)
    }

    /// Makes a bell with this number, for threads that only count what rings.
    pub fn unnumbered(&self, number: u64) -> Result<Numbered, CaseFault> {
        match Arc::try_clone(&self.heard) {
            Ok(heard) => Ok(Numbered { number, heard }),
            Err(_) => Err(CaseFault::Memory),
        }
    }

    /// Begins the next step.
    pub fn begin_step(&self) {
        self.heard.rings.store(0, Ordering::SeqCst);
        self.heard.numbers.store(0, Ordering::SeqCst);
    }

    /// Returns how many bells rang in this step.
    pub fn rings(&self) -> u64 {
        self.heard.rings.load(Ordering::SeqCst)
    }

    /// Returns the number of the bell that rang in this step after `before` others.
    pub fn rang(&self, before: u64) -> u64 {
        if before >= MOST_RINGS {
            return 0;
        }
        let numbers = self.heard.numbers.load(Ordering::SeqCst);
        (numbers >> (7 * before) & 127).wrapping_sub(1)
    }

    /// Returns how many bells rang in total.
    pub fn all(&self) -> u64 {
        self.heard.all.load(Ordering::SeqCst)
    }
}

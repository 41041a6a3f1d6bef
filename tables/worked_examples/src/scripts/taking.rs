//! Books that take the lines of scripts.

use account_book::{Book, OpenFault, Refusal};
use arn_ids::ConfigFault;
use lambda_wire::{Setup, WireFault, read_config};
use std::alloc::{AllocError, Global};
use std::sync::Arc;

/// Why no book was opened.
#[derive(Clone, Copy, Debug)]
pub enum Unopened {
    /// The configuration's line cannot be read.
    Wire(WireFault),
    /// The configuration has a fault.
    Config(ConfigFault),
    /// The greatest number of entries is out of range.
    Open(OpenFault),
    /// An allocation failed.
    Memory,
}

/// Opens the book of a configuration that was read.
fn open(alloc: Global, setup: Setup) -> Result<Book, Unopened> {
    let config = match setup.config.check() {
        Ok(config) => config,
        Err(place) => return Err(Unopened::Config(place.fault)),
    };
    let Ok(config) = Arc::new(alloc, config) else {
        return Err(Unopened::Memory);
    };
    match Book::open(alloc, config, setup.salt, setup.max_entries) {
        Ok(book) => Ok(book),
        Err(OpenFault::OutOfMemory) => Err(Unopened::Memory),
        Err(fault) => Err(Unopened::Open(fault)),
    }
}

/// Opens the book that a line configures.
pub fn open_book(alloc: Global, line: &[u8]) -> Result<Book, Unopened> {
    match read_config(alloc, line) {
        Ok(setup) => open(alloc, setup),
        Err(WireFault::OutOfMemory) => Err(Unopened::Memory),
        Err(fault) => Err(Unopened::Wire(fault)),
    }
}

/// What a book did with a line.
#[derive(Clone, Copy)]
pub enum Taken {
    /// It stands for no call.
    NoCall,
    /// Its call was taken.
    Taken,
    /// Its call was refused, because the journal is full.
    Full,
    /// What the book did contradicts what it had said about being full.
    Otherwise,
}

/// Gives a book the call of a line.
pub fn take(
    alloc: Global,
    book: &mut Book,
    reserves: bool,
    line: &[u8],
) -> Result<Taken, AllocError> {
    let Some((now, call)) = script::read_call(alloc, book.config(), reserves, line)? else {
        return Ok(Taken::NoCall);
    };
    let full = book.full(&call);
    match (book.apply(now, call), full) {
        (Ok(_ticket), false) => Ok(Taken::Taken),
        (Err(Refusal::JournalFull), true) => Ok(Taken::Full),
        (Err(Refusal::OutOfMemory), _) => Err(AllocError),
        _ => Ok(Taken::Otherwise),
    }
}

/// Returns whether the call of a line comes too early for a book; `None` if it stands for no call.
pub fn is_early(alloc: Global, book: &Book, line: &[u8]) -> Result<Option<bool>, AllocError> {
    let Some((now, call)) = script::read_call(alloc, book.config(), true, line)? else {
        return Ok(None);
    };
    Ok(Some(book.is_premature(now, &call)))
}

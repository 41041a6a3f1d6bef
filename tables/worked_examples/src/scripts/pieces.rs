//! Readers that return a script in pieces, and writers with room for only a part of what is
//! written. Either can fail in mid-stream.

ghost use Rattle.std.specs.Prelude.{◌≤◌, length};

use std::alloc::{AllocError, Global};
use std::io::{self, Read, Write};

/// Returns a first line and then a script, up to a number of bytes at once; then ends, or fails.
#[derive(Drop)]
pub struct Pieces<'a> {
    pub first: &'a [u8],
    pub script: &'a [u8],
    pub at_once: usize,
    pub fails: bool,
}

/// Copies bytes from the front of one slice to the front of another.
fn give(from: &mut &[u8], at_once: usize, buf: &mut [u8]) -> usize
    ensures { result ≤ length buf.old }
{
    let n = from.len().min(at_once).min(buf.len());
    buf[..n].copy_from_slice(&from[..n]);
    *from = &from[n..];
    n
}

impl<'a> Read for Pieces<'a> {
    fn read(&mut self, buf: &mut [u8]) -> io::Result<usize> {
        if !self.first.is_empty() {
            return Ok(give(&mut self.first, self.at_once, buf));
        }
        if self.script.is_empty() && self.fails {
            return Err(io::Error::from(io::ErrorKind::Other));
        }
        Ok(give(&mut self.script, self.at_once, buf))
    }
}

/// The number of bytes that a page has allocated from the start.
const PAGE: usize = 32768;

/// The most bytes that a page takes at once.
const AT_ONCE: usize = 3;

/// Takes up to a number of bytes, and then fails.
#[derive(Drop)]
pub struct Page {
    bytes: Vec<u8>,
    room: usize,
}

impl Page {
    /// Creates a page that takes up to `room` bytes. It allocates them here, so that a replay whose
    /// allocations fail can still write.
    pub fn new(alloc: Global, room: usize) -> Result<Page, AllocError> {
        Ok(Page {
            bytes: Vec::with_capacity(alloc, PAGE)?,
            room,
        })
    }

    /// Returns what was written.
    pub fn written(&self) -> &[u8] {
        self.bytes.as_slice()
    }
}

impl Write for Page {
    fn write(&mut self, buf: &[u8]) -> io::Result<usize> {
        let left = self.room.saturating_sub(self.bytes.len());
        let n = left.min(buf.len()).min(AT_ONCE);
        if n == 0 {
            return Err(io::Error::from(io::ErrorKind::Other));
        }
        self.bytes.extend_from_slice(&buf[..n])?;
        Ok(n)
    }

    fn flush(&mut self) -> io::Result<()> {
        Ok(())
    }
}

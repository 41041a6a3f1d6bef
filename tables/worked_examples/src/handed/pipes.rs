//! A body that is passed on piece by piece.

use crate::parts::lines::{Calls, LineFault, Words, make_calls};
use crate::shown::{push_line, tell};
use bytes::Bytes;
use case_tables::{Case, CaseFault, Given};
use handover::{Pipe, Taken};
use std::alloc::Global;

/// The most bytes of a piece that is shown as they are.
const MOST_SHOWN: usize = 80;

/// A pipe.
#[derive(Drop)]
struct Passing {
    pipe: Pipe,
}

/// Returns this many bytes.
fn many(alloc: Global, count: u64) -> Result<Bytes, LineFault> {
    let mut bytes = Vec::new(alloc);
    for _ in 0..count {
        bytes.push(b'x')?;
    }
    Ok(Bytes::from_vec(bytes)?)
}

/// Puts bytes in, and adds what becomes of them, and how many are left.
fn put(pipe: &mut Pipe, bytes: Bytes, given: &mut Given) -> Result<(), LineFault> {
    let mut rest = bytes;
    given.show(&pipe.put(&mut rest)?);
    given.push(" ");
    tell(given, &rest.len());
    Ok(())
}

/// Takes out what was put in, and adds it as a line.
fn take(pipe: &mut Pipe, given: &mut Given) {
    match pipe.take() {
        Taken::Piece(piece) if piece.len() > MOST_SHOWN => tell(given, &piece.len()),
        Taken::Piece(piece) => push_line(given, piece.as_slice()),
        Taken::Nothing => given.line("Nothing"),
        Taken::Whole => given.line("Whole"),
        Taken::Broken => given.line("Broken"),
    }
}

impl Calls for Passing {
    fn call(&mut self, line: &str, given: &mut Given) -> Result<(), LineFault> {
        let mut words = Words::of(line);
        match words.next() {
            "open" => self.pipe = Pipe::new(),
            "put" => {
                let bytes = Bytes::copy_from_slice(given.alloc(), words.rest().as_bytes())?;
                return put(&mut self.pipe, bytes, given);
            }
            "put-many" => {
                let bytes = many(given.alloc(), words.last_number()?)?;
                return put(&mut self.pipe, bytes, given);
            }
            "take" => take(&mut self.pipe, given),
            "finish" => self.pipe.finish(),
            "break-off" => self.pipe.break_off(),
            "abandon" => self.pipe.abandon(),
            "abandoned" => tell(given, &self.pipe.is_abandoned()),
            _ => return Err(LineFault::Malformed),
        }
        Ok(())
    }
}

/// Adds what the lines of a case about a pipe give.
///
/// | Line | What it gives |
/// |---|---|
/// | `open` | nothing; a pipe of which nothing has come |
/// | `put TEXT`, `put-many N` | what becomes of these bytes, or of so many, and how many are left |
/// | `take` | the bytes, or their number if they are many; or `Nothing`, `Whole` or `Broken` |
/// | `finish`, `break-off`, `abandon` | nothing; the body ends, or its receiver goes away |
/// | `abandoned` | whether its receiver has gone away |
pub fn give(case: &Case, given: &mut Given) -> Result<(), CaseFault> {
    let mut passing = Passing { pipe: Pipe::new() };
    make_calls(case, &mut passing, given)
}

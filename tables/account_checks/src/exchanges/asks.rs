//! The requests in the lines of a part.

use crate::exchanges::rows::At;
use crate::lines::{malformed, number_of, split_word};
use bytes::Bytes;
use case_tables::{CaseFault, Part};
use futures::task::{Context, Poll};
use http::request::Parts;
use http_body::{Body, Frame};
use http_uri::{Uri, UriError};
use long_poll::BodyFault;
use std::alloc::{AllocError, Global};

/// The most letters in a piece.
const MOST_LETTERS: u64 = 1 << 24;

/// The same piece a number of times; then the body ends, or it fails.
#[derive(Drop)]
pub struct Pieces {
    piece: Bytes,
    left: u64,
    is_broken: bool,
}

/// A body that breaks off. Memory is not what it lacks.
#[derive(Drop)]
pub struct BrokenOff;

impl BodyFault for BrokenOff {
    fn is_out_of_memory(&self) -> bool {
        false
    }
}

impl Body for Pieces {
    type Data = Bytes;

    type Error = BrokenOff;

    fn poll_frame(&mut self, _cx: &mut Context<'_>) -> Poll<Option<Result<Frame<Bytes>, BrokenOff>>> {
        if self.left > 0 {
            self.left -= 1;
            if let Ok(piece) = self.piece.clone() {
                return Poll::Ready(Some(Ok(Frame::data(piece))));
            }
        } else if !self.is_broken {
            return Poll::Ready(None);
        }
        Poll::Ready(Some(Err(BrokenOff)))
    }
}

/// A request: its moment, head and body.
#[derive(Drop)]
pub struct Ask {
    pub at: At,
    pub parts: Parts,
    pub body: Pieces,
}

/// Returns the three lines of a part; those that it lacks are empty.
pub fn three_in(part: &Part) -> (&str, &str, &str) {
    let (first, rest) = part.lines().split_once('\n').unwrap_or(("", ""));
    let (second, third) = rest.split_once('\n').unwrap_or((rest, ""));
    (first, second, third)
}

/// Returns a number of letters.
fn letters(alloc: Global, count: u64) -> Result<Bytes, AllocError> {
    let mut piece = Vec::new(alloc);
    piece.resize(count as usize, b'x')?;
    Ok(Bytes::from_vec(piece)?)
}

/// Reads a piece of a body: `=TEXT` or `letters N`.
fn piece_in(alloc: Global, line: u64, text: &str) -> Result<Bytes, CaseFault> {
    if let Some(count) = text.strip_prefix("letters ") {
        let count = number_of(line, count)?.min(MOST_LETTERS);
        return Ok(letters(alloc, count)?);
    }
    let text = text.strip_prefix('=').unwrap_or(text);
    Ok(Bytes::from_vec(Vec::from_slice(alloc, text.as_bytes())?)?)
}

/// Reads a body: a piece, repeated after `pieces N` or `broken N`.
fn body_in(alloc: Global, line: u64, text: &str) -> Result<Pieces, CaseFault> {
    let (word, rest) = split_word(text);
    let (count, text) = match word {
        "pieces" | "broken" => split_word(rest),
        _ => ("1", text),
    };
    let left = number_of(line, count)?;
    let piece = piece_in(alloc, line, text)?;
    Ok(Pieces {
        piece,
        left,
        is_broken: word == "broken",
    })
}

/// Returns the head of a request with this path.
fn head_in(alloc: Global, line: u64, path: &str) -> Result<Parts, CaseFault> {
    let uri = match Uri::from_str(alloc, path) {
        Ok(uri) => uri,
        Err(UriError::OutOfMemory) => return Err(CaseFault::Memory),
        Err(_) => return Err(malformed(line, "a path is wanted")),
    };
    let mut parts = Parts::new(alloc);
    parts.uri = uri;
    Ok(parts)
}

/// Reads a request from a line: a moment, a path and a body.
pub fn ask_in(alloc: Global, line: u64, text: &str) -> Result<Ask, CaseFault> {
    let (moment, rest) = split_word(text);
    let (path, body) = split_word(rest);
    let at = At(number_of(line, moment)?);
    let body = body_in(alloc, line, body)?;
    match head_in(alloc, line, path) {
        Ok(parts) => Ok(Ask { at, parts, body }),
        Err(fault) => Err(fault),
    }
}

//! Responses as lines: the status and the body of each, and the requested fields of its head.

use crate::peer::Heard;
use crate::steps::push_line;
use case_tables::Given;
use std::alloc::Global;
use std::num::ParseIntError;
use std::str;

/// The longest body that is shown.
const LONGEST_SHOWN: usize = 1_000;

/// A response (RFC 9112).
#[derive(Drop)]
struct Answer {
    head: Given,
    body: Given,
    /// The number of chunks of the body; 0 if it had a length or ended with the connection.
    chunks: usize,
}

/// What is shown of the responses of a connection.
#[derive(Clone, Copy)]
pub struct View<'a> {
    /// The connection's name.
    pub name: &'a str,
    /// The fields of the head that are shown, separated by a space; `chunks` is the number of
    /// chunks.
    pub fields: &'a str,
}

/// Consecutive responses with the same text.
#[derive(Drop)]
struct Run {
    text: Given,
    times: u64,
}

/// Returns the value of a field, if this line of a head has the field with this name.
fn value_in<'a>(line: &'a str, name: &str) -> Option<&'a str> {
    line.strip_prefix(name)?.strip_prefix(": ")
}

/// Returns the value of a field of a head.
fn field<'a>(head: &'a str, name: &str) -> Option<&'a str> {
    for line in head.split("\r\n") {
        if let Some(value) = value_in(line, name) {
            return Some(value);
        }
    }
    None
}

/// Returns the status in a head.
fn status(head: &str) -> Option<&str> {
    let (version, behind) = head.split_once(' ')?;
    if version != "HTTP/1.1" && version != "HTTP/1.0" {
        return None;
    }
    behind.get(..3)
}

/// Splits a text after this length; returns `None` if the text is shorter, or the length cannot be
/// read.
fn cut(text: &str, length: Result<usize, ParseIntError>) -> Option<(&str, &str)> {
    match length {
        Ok(length) => text.split_at_checked(length),
        Err(_) => None,
    }
}

/// Takes a chunk off the front of a text; the last one is empty.
fn take_chunk<'a>(rest: &mut &'a str) -> Option<&'a str> {
    let (size, behind) = rest.split_once("\r\n")?;
    let (chunk, behind) = cut(behind, usize::from_str_radix(size, 16))?;
    *rest = behind.strip_prefix("\r\n")?;
    Some(chunk)
}

/// Takes the body of a head off the front of a text; it has a length or ends with the connection.
/// Returns `None` if it did not come whole.
fn take_whole<'a>(head: &str, rest: &mut &'a str) -> Option<&'a str> {
    let text = *rest;
    let (body, behind) = match field(head, "content-length") {
        Some(length) => cut(text, length.parse::<usize>())?,
        None => (text, ""),
    };
    *rest = behind;
    Some(body)
}

impl Answer {
    /// Takes the chunks of its body off the front of a text. Returns whether the last one came.
    fn take_chunks(&mut self, rest: &mut &str) -> bool {
        for _ in 0..rest.len() {
            let Some(chunk) = take_chunk(rest) else {
                return false;
            };
            if chunk.is_empty() {
                return true;
            }
            self.body.push(chunk);
            self.chunks = self.chunks.saturating_add(1);
        }
        false
    }

    /// Takes a body without chunks off the front of a text. Returns whether it came whole.
    fn take_piece(&mut self, rest: &mut &str) -> bool {
        let Some(body) = take_whole(self.head.as_str(), rest) else {
            return false;
        };
        self.body.push(body);
        true
    }

    /// Takes the body of its head off the front of a text. Returns whether it came whole.
    fn take_body(&mut self, rest: &mut &str) -> bool {
        match field(self.head.as_str(), "transfer-encoding") {
            Some(_) => self.take_chunks(rest),
            None => self.take_piece(rest),
        }
    }
}

/// Takes a response off the front of a text; returns `None` if it did not come whole.
fn take_answer(alloc: Global, rest: &mut &str) -> Option<Answer> {
    let (head, behind) = rest.split_once("\r\n\r\n")?;
    *rest = behind;
    let mut answer = Answer {
        head: Given::new(alloc),
        body: Given::new(alloc),
        chunks: 0,
    };
    answer.head.push(head);
    match answer.take_body(rest) {
        true => Some(answer),
        false => None,
    }
}

/// Marks a text as cut, if this part of it was cut.
fn cut_with(given: &mut Given, part: &Given) {
    if part.end().is_err() {
        given.cut();
    }
}

/// Adds a body: on the same line, or below it if the body itself has lines.
fn tell_body(given: &mut Given, body: &Given) {
    let text = body.as_str();
    if text.contains('\n') {
        given.push("\n");
        given.push(text.strip_suffix('\n').unwrap_or(text));
    } else if text.len() > LONGEST_SHOWN {
        given.push(" (");
        given.print(&text.len());
        given.push(" bytes)");
    } else if !text.is_empty() {
        given.push(" ");
        given.push(text);
    }
    cut_with(given, body);
}

/// Adds a field of the head on a line of its own.
fn tell_field(given: &mut Given, name: &str, answer: &Answer) {
    given.push("\n  ");
    given.push(name);
    given.push(": ");
    match name {
        "chunks" => given.print(&answer.chunks),
        _ => given.push(field(answer.head.as_str(), name).unwrap_or("-")),
    }
}

/// Adds the fields of the head that are shown.
fn tell_fields(given: &mut Given, fields: &str, answer: &Answer) {
    for name in fields.split(' ') {
        if !name.is_empty() {
            tell_field(given, name, answer);
        }
    }
    cut_with(given, &answer.head);
}

/// Adds a response: its status and body, and below them the fields that are shown.
fn tell_answer(given: &mut Given, fields: &str, answer: &Answer) {
    match status(answer.head.as_str()) {
        None => given.push("no response"),
        Some(status) => {
            given.push(status);
            tell_body(given, &answer.body);
            tell_fields(given, fields, answer);
        }
    }
}

/// Returns the text of the next response.
fn next_text(alloc: Global, rest: &mut &str, fields: &str) -> Given {
    let mut text = Given::new(alloc);
    match take_answer(alloc, rest) {
        Some(answer) => tell_answer(&mut text, fields, &answer),
        None => {
            *rest = "";
            text.push("a part of a response");
        }
    }
    text
}

impl Run {
    /// Takes the text of the next response. If it differs from the run's, adds the lines of the
    /// run.
    fn take(&mut self, given: &mut Given, name: &str, text: Given) {
        cut_with(given, &text);
        if text.as_str() != self.text.as_str() {
            tell_run(given, name, self);
            *self = Run { text, times: 0 };
        }
        self.times = self.times.saturating_add(1);
    }
}

/// Adds the lines of a run.
fn tell_run(given: &mut Given, name: &str, run: &Run) {
    if run.times == 0 {
        return;
    }
    given.push(name);
    given.push(": ");
    if run.times > 1 {
        given.print(&run.times);
        given.push(" times ");
    }
    given.line(run.text.as_str());
}

/// Adds the lines of all responses in a text.
fn tell_answers(given: &mut Given, view: &View<'_>, whole: &str) {
    let mut rest = whole;
    let mut run = Run {
        text: Given::new(given.alloc()),
        times: 0,
    };
    for _ in 0..whole.len() {
        if rest.is_empty() {
            break;
        }
        let text = next_text(given.alloc(), &mut rest, view.fields);
        run.take(given, view.name, text);
    }
    tell_run(given, view.name, &run);
}

/// Adds what came over a connection: its responses, `closed` if it ended without any, and `no end`
/// if it did not end.
pub fn push_heard(given: &mut Given, view: &View<'_>, heard: &Heard) {
    match str::from_utf8(heard.bytes.as_slice()) {
        Ok(text) => tell_answers(given, view, text),
        Err(_) => push_line(given, view.name, "bytes that are no text"),
    }
    if !heard.has_ended {
        push_line(given, view.name, "no end");
    } else if heard.bytes.is_empty() {
        push_line(given, view.name, "closed");
    }
}

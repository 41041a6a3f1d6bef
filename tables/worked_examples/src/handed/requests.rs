//! The requests that wait for a handler or are at one, and whether a handler is here.

use crate::parts::lines::{Calls, LineFault, Words, make_calls, number_of};
use crate::shown::tell;
use bytes::Bytes;
use case_tables::{Case, CaseFault, Given};
use handover::{Attendance, Limits, Request, Requests};
use std::alloc::Global;

/// Requests, and the handlers that are here.
#[derive(Drop)]
struct Counter {
    requests: Requests,
    attendance: Attendance,
}

/// Returns the text of a word; a dash is the empty one.
fn text_of(word: &str) -> &str {
    match word {
        "-" => "",
        _ => word,
    }
}

fn request_of(alloc: Global, head: &str, body: &str) -> Result<Request, LineFault> {
    Ok(Request {
        head: String::from_str(alloc, text_of(head))?.into_bytes(),
        body: Bytes::copy_from_slice(alloc, text_of(body).as_bytes())?,
    })
}

fn put(requests: &mut Requests, words: Words<'_>, given: &mut Given) -> Result<(), LineFault> {
    let mut words = words;
    let head = words.next();
    let request = request_of(given.alloc(), head, words.rest())?;
    match requests.put(request) {
        Ok(id) => tell(given, &id),
        Err(fault) => tell(given, &fault),
    }
    Ok(())
}

/// Adds a request with its identifier as a line.
fn tell_request(request: Option<(u64, Request)>, given: &mut Given) {
    let Some((id, request)) = request else {
        given.line("none");
        return;
    };
    given.print(&id);
    given.push(" ");
    given.push_bytes(request.head.as_slice());
    given.push(" ");
    given.push_bytes(request.body.as_slice());
    given.push("\n");
}

fn answer(requests: &mut Requests, words: Words<'_>, given: &mut Given) -> Result<(), LineFault> {
    let mut words = words;
    let id = words.number()?;
    match requests.answer(id, words.last_number()?) {
        Ok(()) => given.line("answered"),
        Err(fault) => tell(given, &fault),
    }
    Ok(())
}

fn end(attendance: &mut Attendance, words: Words<'_>) -> Result<(), LineFault> {
    let mut words = words;
    let handler = words.number()?;
    attendance.ended(handler, words.last_number()?);
    Ok(())
}

fn call_requests(
    requests: &mut Requests,
    word: &str,
    words: Words<'_>,
    given: &mut Given,
) -> Result<(), LineFault> {
    match word {
        "put" => return put(requests, words, given),
        "take" => {
            let request = requests.take(words.last_number()?)?;
            tell_request(request, given);
        }
        "give-up" => tell_request(requests.give_up(), given),
        "answer" => return answer(requests, words, given),
        "handler-ended" => requests.end_handler(words.last_number()?),
        "requester-ended" => tell(given, &requests.requester_ended(words.last_number()?)),
        "stage" => tell(given, &requests.stage(words.last_number()?)),
        "refusal" => tell(given, &requests.refusal(words.last_number()?)),
        _ => return Err(LineFault::Malformed),
    }
    Ok(())
}

/// Opens a counter from its limits and its grace.
fn opened(alloc: Global, words: Words<'_>) -> Result<Counter, LineFault> {
    let mut words = words;
    let limits = Limits {
        most: words.number()?,
        most_bytes: words.number()?,
    };
    Ok(Counter {
        requests: Requests::new(alloc, limits),
        attendance: Attendance::new(alloc, words.last_number()?),
    })
}

impl Calls for Counter {
    fn call(&mut self, line: &str, given: &mut Given) -> Result<(), LineFault> {
        let mut words = Words::of(line);
        match words.next() {
            "open" => *self = opened(given.alloc(), words)?,
            "asks" => self.attendance.asked(words.last_number()?)?,
            "ends" => return end(&mut self.attendance, words),
            "attended" => tell(
                given,
                &self.attendance.is_attended(number_of(words.rest())?),
            ),
            word => return call_requests(&mut self.requests, word, words, given),
        }
        Ok(())
    }
}

/// Adds what the lines of a case about requests and handlers give.
///
/// | Line | What it gives |
/// |---|---|
/// | `open N BYTES GRACE` | nothing; so many requests, and bytes of those that wait, are let in, and a handler is waited for so long |
/// | `put HEAD BODY` | the identifier, or why it is refused; a dash is empty |
/// | `take H`, `give-up` | the first request: its identifier, head and body, or `none` |
/// | `answer I H` | `answered`, or why not |
/// | `handler-ended H` | nothing |
/// | `requester-ended I`, `stage I` | where the request was, or is |
/// | `refusal N` | why a request of so many bytes is refused now, if it is |
/// | `asks H`, `ends H MOMENT` | nothing; a handler asks, or ends |
/// | `attended MOMENT` | whether requests are handed over then |
pub fn give(case: &Case, given: &mut Given) -> Result<(), CaseFault> {
    let alloc = given.alloc();
    let limits = Limits {
        most: 0,
        most_bytes: 0,
    };
    let mut counter = Counter {
        requests: Requests::new(alloc, limits),
        attendance: Attendance::new(alloc, 0),
    };
    make_calls(case, &mut counter, given)
}

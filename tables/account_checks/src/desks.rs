//! Cases of the desk at which requesters and handlers meet: what each step gives.

use crate::Runner;
use crate::lines::{malformed, number_of, split_word};
use bytes::Bytes;
use case_tables::{Case, CaseFault, Given};
use futures::channel::oneshot::Canceled;
use handler_desk::{
    Asked, Desk, Given as Answer, NotPut, Posted, Put, Request, Taken, open_pipe, read_asked,
};
use http::Method;
use http::request::Parts;
use http_header::{HeaderName, HeaderValue};
use http_uri::Uri;
use std::alloc::Global;

/// Returns the request whose body is this text.
fn request_of(alloc: Global, text: &str) -> Result<Request, CaseFault> {
    Ok(Request {
        head: Vec::new(alloc),
        body: Bytes::from_vec(Vec::from_slice(alloc, text.as_bytes())?)?,
    })
}

/// Returns the head of a post with this status, to a path.
fn post_of(alloc: Global, line: u64, path: &str, status: &str) -> Result<Parts, CaseFault> {
    let mut parts = Parts::new(alloc);
    parts.method = Method::POST;
    match Uri::from_str(alloc, path) {
        Ok(uri) => parts.uri = uri,
        Err(_) => return Err(malformed(line, "a path is wanted")),
    }
    let name = HeaderName::from_bytes(alloc, b"lambda-local-status");
    let value = HeaderValue::from_bytes(alloc, status.as_bytes());
    if let (Ok(name), Ok(value)) = (name, value) {
        let _ = parts.headers.append(name, value);
    }
    Ok(parts)
}

/// The desk of a case, and what waits at it.
#[derive(Drop)]
struct Scene<R> {
    rt: R,
    alloc: Global,
    desk: Desk,
    waiting: Vec<Put>,
}

impl<R: Runner> Scene<R> {
    /// Lets a request wait.
    fn put(&mut self, text: &str, given: &mut Given) -> Result<(), CaseFault> {
        let request = request_of(self.alloc, text)?;
        match self.desk.put(&self.rt, request) {
            Ok(put) => {
                given.push("waits as ");
                given.print(&put.id);
                self.waiting.push(put)?;
            }
            Err(NotPut::NoHandler) => given.push("no handler"),
            Err(NotPut::TooMany) => given.push("too many"),
            Err(NotPut::OutOfMemory) => return Err(CaseFault::Memory),
        }
        Ok(())
    }

    /// Lets so many requests wait.
    fn fill(&mut self, count: u64) -> Result<(), CaseFault> {
        for _ in 0..count {
            let request = request_of(self.alloc, "x")?;
            if let Ok(put) = self.desk.put(&self.rt, request) {
                self.waiting.push(put)?;
            }
        }
        Ok(())
    }

    /// Lets a handler ask.
    fn ask(&mut self, handler: u64, given: &mut Given) -> Result<(), CaseFault> {
        match self.desk.take(&self.rt, handler)? {
            Taken::Request(id, request) => {
                given.push("gets ");
                given.print(&id);
                given.push(" ");
                given.push_bytes(request.body.as_slice());
            }
            Taken::Heard(_) => given.push("none waits"),
            Taken::Over => given.push("over"),
        }
        Ok(())
    }

    /// Lets a handler answer by a post.
    fn answer(&mut self, line: u64, handler: u64, rest: &str, given: &mut Given) -> Result<(), CaseFault> {
        let (path, status) = split_word(rest);
        let post = post_of(self.alloc, line, path, status)?;
        match read_asked(&post) {
            Asked::Response(id) => {
                let (_sender, body) = open_pipe(self.alloc, Some(0))?;
                match Posted::read(self.alloc, post, id, body) {
                    Ok(posted) => match self.desk.answer(&self.rt, handler, posted) {
                        Ok(()) => given.push("taken"),
                        Err(fault) => given.print(&fault),
                    },
                    Err(fault) => given.print(&fault),
                }
            }
            Asked::Failure(id) => match self.desk.fail(&self.rt, handler, id) {
                Ok(()) => given.push("taken"),
                Err(fault) => given.print(&fault),
            },
            Asked::Next | Asked::Nothing => given.push("nothing"),
        }
        Ok(())
    }

    /// Adds what was given for a request.
    fn look(&mut self, id: u64, given: &mut Given) {
        for put in &mut self.waiting {
            if put.id == id {
                match put.given.try_recv() {
                    Ok(Some(Answer::Posted(posted))) => {
                        given.push("posted ");
                        given.print(&posted.head.status);
                        given.push(" for ");
                        given.print(&posted.id);
                    }
                    Ok(Some(Answer::Failed)) => given.push("failed"),
                    Ok(None) => given.push("nothing yet"),
                    Err(Canceled) => given.push("lost"),
                }
            }
        }
    }

    /// Takes a step.
    fn step(&mut self, line: u64, text: &str, given: &mut Given) -> Result<(), CaseFault> {
        let (word, rest) = split_word(text);
        let (number, others) = split_word(rest);
        match word {
            "put" => self.put(rest, given)?,
            "fill" => {
                self.fill(number_of(line, number)?)?;
                given.push("filled");
            }
            "ask" => self.ask(number_of(line, number)?, given)?,
            "post" => self.answer(line, number_of(line, number)?, others, given)?,
            "look" => self.look(number_of(line, number)?, given),
            "gone" => {
                let id = number_of(line, number)?;
                self.waiting.retain(|put| put.id != id);
                given.push("gone");
            }
            "end" => {
                self.desk.note_end(&self.rt, number_of(line, number)?);
                given.push("ended");
            }
            "close" => {
                self.desk.close(&self.rt);
                given.push("closed");
            }
            _ => return Err(malformed(line, "a step is wanted")),
        }
        given.push("\n");
        Ok(())
    }
}

/// Adds what each step gives at one desk: `put TEXT` lets a request wait, `fill N` so many, `ask H` lets handler H ask,
/// `post H PATH STATUS` lets it post, `look ID` tells what was given for a request, `gone ID` lets its requester go away,
/// `end H` ends the handler's connection, and `close` the service.
pub fn give<R: Runner>(rt: R, case: &Case, given: &mut Given) -> Result<(), CaseFault> {
    let alloc = given.alloc();
    let mut scene = Scene {
        rt,
        alloc,
        desk: Desk::new(&rt, alloc)?,
        waiting: Vec::new(alloc),
    };
    let Some(part) = case.part("steps") else {
        return Err(CaseFault::Missing { part: "steps" });
    };
    for text in part.lines().split('\n') {
        if !text.is_empty() {
            scene.step(part.line(), text, given)?;
        }
    }
    Ok(())
}

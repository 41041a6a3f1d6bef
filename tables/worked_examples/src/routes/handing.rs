//! Whether a request may be handed over to a handler, as a line.

use crate::routes::port::PortOfCase;
use crate::routes::request::read_head;
use case_tables::{CaseFault, Given, Part};
use handler_desk::{Asked, read_asked};

/// Adds what a handler asks for.
fn push_asked(asked: Asked, given: &mut Given) {
    match asked {
        Asked::Next => given.push("the next request"),
        Asked::Response(id) => {
            given.push("to answer ");
            given.print(&id);
        }
        Asked::Failure(id) => {
            given.push("to fail ");
            given.print(&id);
        }
        Asked::Nothing => given.push("nothing"),
    }
}

/// Adds whether the request whose head is in a part may be handed over, or is a handler's own.
pub fn push_handing(port: &PortOfCase, part: &Part, given: &mut Given) -> Result<(), CaseFault> {
    let head = read_head(given.alloc(), part, part.lines())?;
    if port.side.is_own(&head) {
        given.push("a handler's own: ");
        push_asked(read_asked(&head), given);
        given.push("\n");
        return Ok(());
    }
    match port.side.hands_over(given.alloc(), &head) {
        Ok(true) => given.push("may be handed over\n"),
        Ok(false) => given.push("answered here\n"),
        Err(_) => given.cut(),
    }
    Ok(())
}

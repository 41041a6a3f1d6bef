//! Replies as text.

use crate::shown::{push_headers, push_line};
use case_tables::Given;
use lambda_wire::Reply;

/// Adds a reply: its status, its headers, and after an empty line its body, if it has one.
pub fn push_reply(given: &mut Given, reply: &Reply) {
    given.print(&reply.status);
    given.push("\n");
    push_headers(given, &reply.headers);
    if !reply.body.is_empty() {
        given.push("\n");
        push_line(given, reply.body.as_slice());
    }
}

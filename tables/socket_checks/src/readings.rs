//! What is shown of bytes that came over a connection: how the checks read, without a connection.

use case_tables::{Case, CaseFault, Given, Part, Subject};
use socket_peers::{Heard, View, bytes_of, push_heard};
use std::alloc::Global;

/// How bytes are read. The lines of a part `came` are what came until the end, and those of a part
/// `came-so-far` what came without an end; the fields of the head that are shown follow the word.
pub struct Readings;

/// Returns what came, from a part.
fn heard_in(alloc: Global, part: &Part) -> Result<Heard, CaseFault> {
    let has_ended = match part.word() {
        "came" => true,
        "came-so-far" => false,
        _ => return Err(CaseFault::Unknown { line: part.line() }),
    };
    let bytes = bytes_of(alloc, part)?;
    Ok(Heard { bytes, has_ended })
}

impl Subject for Readings {
    fn give(&self, alloc: Global, case: &Case, given: &mut String) -> Result<(), CaseFault> {
        let mut told = Given::new(alloc);
        for part in case.parts() {
            let heard = heard_in(alloc, part)?;
            let view = View {
                name: "peer",
                fields: part.arguments(),
            };
            push_heard(&mut told, &view, &heard);
        }
        told.hand_over(given)
    }
}

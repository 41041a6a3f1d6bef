//! What is read from bodies. Each line of a part `each` is a body; without such a part, the parts
//! of a case together are one body. A body gives a line: its content, or the fault.

use crate::shown::push_line;
use bytes::Bytes;
use case_tables::{Case, CaseFault, Given, Part, push_bytes};
use lambda_wire::{
    Events, PayloadScratch, Setup, WireFault, read_config, read_invoke_body, read_register,
    read_reservation, write_config,
};
use std::alloc::Global;

/// The type that a body is read as.
#[derive(Clone, Copy)]
pub enum Reading {
    /// The payload of an Invoke: taken unchanged, or as other bytes.
    Payloads,
    /// A registration: the events that it subscribes to.
    Registrations,
    /// A reservation: its count.
    Reservations,
    /// A configuration: its text, with every member.
    Configurations,
}

/// Adds the fault of a body that cannot be read.
fn push_fault(fault: WireFault, given: &mut Given) {
    if fault == WireFault::OutOfMemory {
        given.cut();
    }
    given.show(&fault);
    given.push("\n");
}

fn push_read(scratch: &mut PayloadScratch, body: &Bytes, given: &mut Given) {
    match read_invoke_body(given.alloc(), scratch, body) {
        Ok(payload) if payload.as_slice() == body.as_slice() => given.push("as it stands\n"),
        Ok(payload) => push_line(given, payload.as_slice()),
        Err(fault) => push_fault(fault, given),
    }
}

fn push_payload(scratch: &mut PayloadScratch, bytes: &[u8], given: &mut Given) {
    match Bytes::copy_from_slice(given.alloc(), bytes) {
        Ok(body) => push_read(scratch, &body, given),
        Err(_) => given.cut(),
    }
}

/// Returns the words for the events that are subscribed to.
fn events_text(events: Events) -> &'static str {
    match (events.invoke, events.shutdown) {
        (false, false) => "no event\n",
        (true, false) => "INVOKE\n",
        (false, true) => "SHUTDOWN\n",
        (true, true) => "INVOKE and SHUTDOWN\n",
    }
}

fn push_registration(bytes: &[u8], given: &mut Given) {
    match read_register(given.alloc(), bytes) {
        Ok(events) => given.push(events_text(events)),
        Err(fault) => push_fault(fault, given),
    }
}

fn push_reservation(bytes: &[u8], given: &mut Given) {
    match read_reservation(given.alloc(), bytes) {
        Ok(count) => {
            given.print(&count);
            given.push("\n");
        }
        Err(fault) => push_fault(fault, given),
    }
}

fn push_setup(setup: &Setup, given: &mut Given) {
    match write_config(given.alloc(), &setup.config, setup.salt, setup.max_entries) {
        Ok(text) => push_line(given, text.as_slice()),
        Err(_) => given.cut(),
    }
}

fn push_configuration(bytes: &[u8], given: &mut Given) {
    match read_config(given.alloc(), bytes) {
        Ok(setup) => push_setup(&setup, given),
        Err(fault) => push_fault(fault, given),
    }
}

/// Adds the content of a body.
fn push_reading(scratch: &mut PayloadScratch, reading: Reading, bytes: &[u8], given: &mut Given) {
    match reading {
        Reading::Payloads => push_payload(scratch, bytes, given),
        Reading::Registrations => push_registration(bytes, given),
        Reading::Reservations => push_reservation(bytes, given),
        Reading::Configurations => push_configuration(bytes, given),
    }
}

/// Adds the content of each line of a part. One scratch serves them all.
fn push_each(scratch: &mut PayloadScratch, reading: Reading, part: &Part, given: &mut Given) {
    for line in part.lines().split('\n') {
        push_reading(scratch, reading, line.as_bytes(), given);
    }
}

/// Returns the bytes of parts, concatenated.
fn bytes_of(alloc: Global, parts: &[Part]) -> Result<Vec<u8>, CaseFault> {
    let mut bytes = Vec::new(alloc);
    for part in parts {
        push_bytes(&mut bytes, part)?;
    }
    Ok(bytes)
}

/// Adds the content of the body that the parts together are.
fn push_whole(reading: Reading, parts: &[Part], given: &mut Given) -> Result<(), CaseFault> {
    let bytes = bytes_of(given.alloc(), parts)?;
    push_reading(&mut PayloadScratch::new(), reading, bytes.as_slice(), given);
    Ok(())
}

/// Adds what a case gives.
pub fn give(reading: Reading, case: &Case, given: &mut Given) -> Result<(), CaseFault> {
    match case.part("each") {
        Some(part) if case.parts().len() == 1 => {
            push_each(&mut PayloadScratch::new(), reading, part, given);
            Ok(())
        }
        _ => push_whole(reading, case.parts(), given),
    }
}

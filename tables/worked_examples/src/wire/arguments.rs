//! The arguments of a call: a JSON object on a line of its own.

use case_tables::{CaseFault, value_of};
use lambda_wire::InvokeFault;
use serde_json::Value;
use std::alloc::Global;

/// The kinds of an Invoke's fault, by their names.
const FORMS: [(&str, InvokeFault); 3] = [
    ("User", InvokeFault::User),
    ("NotFound", InvokeFault::NotFound),
    ("Service", InvokeFault::Service),
];

/// The arguments of a call, and the number of their line.
#[derive(Drop)]
pub struct Arguments {
    fields: Value,
    line: u64,
}

/// Whether a value fits the argument with this name: a text, with a few exceptions.
fn fits(name: &str, value: &Value) -> bool {
    match name {
        "deadline" | "status" => value.as_u64().is_some(),
        "failed" => value.as_bool().is_some(),
        _ => value.as_str().is_some(),
    }
}

impl Arguments {
    /// Reads the arguments in a line.
    pub fn read(alloc: Global, text: &str, line: u64) -> Result<Arguments, CaseFault> {
        match Value::from_str(alloc, text) {
            Ok(fields) => Ok(Arguments { fields, line }),
            Err(fault) if fault.is_memory() => Err(CaseFault::Memory),
            Err(_) => Err(CaseFault::Malformed {
                line,
                what: "a JSON object is wanted",
            }),
        }
    }

    /// Checks that a call is one of these, and that the arguments it needs are there.
    pub fn check_call(&self, calls: &[(&str, &[&str])], word: &str) -> Result<(), CaseFault> {
        match value_of(calls, word) {
            Some(wanted) => self.check(wanted),
            None => Err(self.unknown()),
        }
    }

    /// Checks that the arguments that a call needs are there.
    pub fn check(&self, wanted: &[&str]) -> Result<(), CaseFault> {
        for name in wanted {
            match self.fields.get(*name) {
                Some(value) if fits(*name, value) => {}
                _ => return Err(self.fault("an argument is missing")),
            }
        }
        Ok(())
    }

    /// Returns the text of an argument, if it is given.
    pub fn text_if_given(&self, name: &str) -> Option<&str> {
        self.fields.get(name)?.as_str()
    }

    /// Returns the text of an argument that was checked.
    pub fn text(&self, name: &str) -> &str {
        self.text_if_given(name).unwrap_or("")
    }

    /// Returns the number of an argument, if it is given.
    pub fn number_if_given(&self, name: &str) -> Option<u64> {
        self.fields.get(name)?.as_u64()
    }

    /// Returns the number of an argument that was checked.
    pub fn number(&self, name: &str) -> u64 {
        self.number_if_given(name).unwrap_or(0)
    }

    /// Whether an argument that was checked is `true`.
    pub fn is_true(&self, name: &str) -> bool {
        match self.fields.get(name) {
            Some(value) => value.as_bool() == Some(true),
            None => false,
        }
    }

    /// Returns the kind of an Invoke's fault.
    pub fn form(&self) -> Result<InvokeFault, CaseFault> {
        match value_of(&FORMS, self.text("form")) {
            Some(form) => Ok(form),
            None => Err(self.fault("User, NotFound or Service is wanted")),
        }
    }

    /// Returns the fault of a line that does not contain what it must.
    pub fn fault(&self, what: &'static str) -> CaseFault {
        CaseFault::Malformed {
            line: self.line,
            what,
        }
    }

    /// Returns the fault of a part that names no call.
    pub fn unknown(&self) -> CaseFault {
        CaseFault::Unknown { line: self.line }
    }
}

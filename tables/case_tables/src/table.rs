//! Reads the text of a table.

use crate::case::{Case, is_aside};
use crate::fault::{CaseFault, malformed};
use std::alloc::Global;

/// Whether one of these cases has this name.
fn is_there(cases: &[Case], name: &str) -> bool {
    for case in cases {
        if case.name() == name {
            return true;
        }
    }
    false
}

/// A table that has been read up to a line: its cases, the last of which is open.
#[derive(Drop)]
struct Reader {
    alloc: Global,
    cases: Vec<Case>,
    line: u64,
}

impl Reader {
    /// Returns the fault of a line that does not contain what it must.
    fn malformed(&self, what: &'static str) -> CaseFault {
        malformed(self.line, what)
    }

    /// Ends the current case, if there is one, before the next.
    fn close(&mut self) -> Result<(), CaseFault> {
        let Some(case) = self.cases.last_mut() else {
            return Ok(());
        };
        case.drop_blank_line();
        case.close()
    }

    /// Opens a case with this name.
    fn open(&mut self, name: &str) -> Result<(), CaseFault> {
        if name.is_empty() {
            return Err(self.malformed("a case without a name"));
        }
        if is_there(self.cases.as_slice(), name) {
            return Err(self.malformed("a name that stands twice"));
        }
        let case = Case::open(self.alloc, name, self.line)?;
        Ok(self.cases.push(case)?)
    }

    /// Takes a line that does not begin a case.
    fn take_inner(&mut self, line: &str) -> Result<(), CaseFault> {
        match self.cases.last_mut() {
            Some(case) => case.take_line(self.alloc, line, self.line),
            None if is_aside(line) => Ok(()),
            None => Err(malformed(self.line, "a line outside a case")),
        }
    }

    /// Takes the next line.
    fn take(&mut self, line: &str) -> Result<(), CaseFault> {
        self.line = self.line.saturating_add(1);
        match line.strip_prefix("== ") {
            Some(name) => {
                self.close()?;
                self.open(name)
            }
            None => self.take_inner(line),
        }
    }

    /// Ends the last case.
    fn end(&mut self) -> Result<(), CaseFault> {
        match self.cases.last_mut() {
            Some(case) => case.close(),
            None => Err(malformed(self.line, "no case")),
        }
    }

    /// Takes the lines of a text, and ends the last case.
    fn take_all(&mut self, text: &str) -> Result<(), CaseFault> {
        for line in text.split('\n') {
            self.take(line)?;
        }
        self.end()
    }
}

/// Reads the cases of a table.
pub fn read_cases(alloc: Global, text: &str) -> Result<Vec<Case>, CaseFault> {
    let mut reader = Reader {
        alloc,
        cases: Vec::new(alloc),
        line: 0,
    };
    match reader.take_all(text.strip_suffix('\n').unwrap_or(text)) {
        Ok(()) => Ok(reader.cases),
        Err(fault) => Err(fault),
    }
}

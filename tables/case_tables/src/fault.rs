//! Why a case or a table cannot be run.

use std::alloc::{AllocError, AllocFailed};
use std::io;
use thiserror::Error;

/// Why a case cannot be run.
#[derive(Clone, Copy)]
pub enum CaseFault {
    /// An allocation failed.
    Memory,
    /// The part at this line is unknown to the subject.
    Unknown { line: u64 },
    /// The case lacks a part with this word.
    Missing { part: &'static str },
    /// The part at this line does not contain what it must.
    Malformed { line: u64, what: &'static str },
}

/// Returns the fault of a line that does not contain what it must.
pub(crate) fn malformed(line: u64, what: &'static str) -> CaseFault {
    CaseFault::Malformed { line, what }
}

impl From<AllocError> for CaseFault {
    fn from(_e: AllocError) -> CaseFault {
        CaseFault::Memory
    }
}

impl<T: Drop> From<AllocFailed<T>> for CaseFault {
    fn from(_e: AllocFailed<T>) -> CaseFault {
        CaseFault::Memory
    }
}

/// Why a table was not run to its end. It is displayed as the line that a program writes to
/// standard error.
#[derive(Clone, Copy, Debug, Error)]
pub enum TableFault {
    /// The file has at this line something that a table cannot contain, or that its subject does
    /// not accept.
    #[error("{file}:{line}: {what}")]
    Malformed {
        file: &'static str,
        line: u64,
        what: &'static str,
    },
    /// The case that begins at this line lacks a part with this word.
    #[error("{file}:{line}: a part {part} is missing")]
    Missing {
        file: &'static str,
        line: u64,
        part: &'static str,
    },
    /// The file could not be read.
    #[error("{file}: failed")]
    Read {
        file: &'static str,
    },
    /// Standard output accepted nothing.
    #[error("output: failed")]
    Write,
    /// An allocation failed.
    #[error("out of memory")]
    OutOfMemory,
}

impl TableFault {
    /// Returns the exit status of a program that ends with this fault: 2 if a table is at fault, 4
    /// if the machine is.
    pub fn status(self) -> u8 {
        match self {
            TableFault::Malformed { .. } | TableFault::Missing { .. } => 2,
            TableFault::Read { .. } | TableFault::Write | TableFault::OutOfMemory => 4,
        }
    }

    /// Returns the fault of a file that could not be read.
    pub(crate) fn at_input(file: &'static str, fault: &io::Error) -> TableFault {
        match fault.kind() {
            io::ErrorKind::OutOfMemory => TableFault::OutOfMemory,
            _ => TableFault::Read { file },
        }
    }

    /// Returns the fault of an output that could not be written.
    pub(crate) fn at_output(fault: &io::Error) -> TableFault {
        match fault.kind() {
            io::ErrorKind::OutOfMemory => TableFault::OutOfMemory,
            _ => TableFault::Write,
        }
    }

    /// Returns the fault of a file's case.
    pub(crate) fn of_case(file: &'static str, line: u64, fault: CaseFault) -> TableFault {
        match fault {
            CaseFault::Memory => TableFault::OutOfMemory,
            CaseFault::Unknown { line } => TableFault::Malformed {
                file,
                line,
                what: "no part that is known here",
            },
            CaseFault::Missing { part } => TableFault::Missing { file, line, part },
            CaseFault::Malformed { line, what } => TableFault::Malformed { file, line, what },
        }
    }
}

impl From<AllocError> for TableFault {
    fn from(_e: AllocError) -> TableFault {
        TableFault::OutOfMemory
    }
}

impl<T: Drop> From<AllocFailed<T>> for TableFault {
    fn from(_e: AllocFailed<T>) -> TableFault {
        TableFault::OutOfMemory
    }
}

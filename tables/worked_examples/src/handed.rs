//! Requests that are handed over to a handler.

mod messages;
mod pipes;
mod requests;

use case_tables::{Case, CaseFault, Given};

/// The subject of a file's cases.
#[derive(Clone, Copy)]
pub enum Table {
    Requests,
    Messages,
    Pipes,
}

impl Table {
    /// Adds what a case gives.
    pub fn tell(self, case: &Case, given: &mut Given) -> Result<(), CaseFault> {
        match self {
            Table::Requests => requests::give(case, given),
            Table::Messages => messages::give(case, given),
            Table::Pipes => pipes::give(case, given),
        }
    }
}

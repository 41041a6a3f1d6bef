//! Scripts that are replayed, and books that take the lines of scripts.

mod books;
mod histories;
mod pieces;
mod questions;
mod readings;
mod replays;
mod taking;
mod texts;

use case_tables::{Case, CaseFault, Given};

/// The subject of a file's cases.
#[derive(Clone, Copy)]
pub enum Table {
    /// Scripts, each replayed in every way.
    Scripts,
    /// Books.
    Books,
}

impl Table {
    /// Adds what a case gives.
    pub fn tell(self, case: &Case, given: &mut Given) -> Result<(), CaseFault> {
        match self {
            Table::Scripts => replays::give(case, given),
            Table::Books => books::give(case, given),
        }
    }
}

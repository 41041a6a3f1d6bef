//! The parts of an account.

mod answers;
mod configurations;
mod due;
mod environments;
mod extension_sets;
mod heads;
mod histories;
mod identifiers;
pub mod lines;
mod moves;
mod names;
mod places;
mod pools;
mod ports;
mod script_calls;
mod script_lines;
mod written_answers;

use case_tables::{Case, CaseFault, Given};

/// The subject of a file's cases.
#[derive(Clone, Copy)]
pub enum Table {
    Names,
    Identifiers,
    Configurations,
    ScriptLines,
    Histories,
    Heads,
    Pools,
    Deadlines,
    Places,
    Ports,
    Moves,
    Extensions,
    Environments,
}

impl Table {
    /// Adds what a case gives.
    pub fn tell(self, case: &Case, given: &mut Given) -> Result<(), CaseFault> {
        match self {
            Table::Names => names::give(case, given),
            Table::Identifiers => identifiers::give(case, given),
            Table::Configurations => configurations::give(case, given),
            Table::ScriptLines => script_lines::give(case, given),
            Table::Histories => histories::give(case, given),
            Table::Heads => heads::give(case, given),
            Table::Pools => pools::give(case, given),
            Table::Deadlines => due::give(case, given),
            Table::Places => places::give(case, given),
            Table::Ports => ports::give(case, given),
            Table::Moves => moves::give(case, given),
            Table::Extensions => extension_sets::give(case, given),
            Table::Environments => environments::give(case, given),
        }
    }
}

//! What is on the wire: the bodies and headers that are written, the bodies that are read, and the
//! replies that answers become.

mod answers;
mod arguments;
mod bodies;
mod headers;
mod readings;
mod refusals;
mod rendered;
mod reply_text;
mod written;

use crate::wire::readings::Reading;
use crate::wire::written::Written;
use case_tables::{Case, CaseFault, Given};

/// The subject of a file's cases.
#[derive(Clone, Copy)]
pub enum Table {
    /// The bodies of replies.
    Bodies,
    /// The headers of replies.
    Headers,
    /// Whole replies that report a refusal.
    Refusals,
    /// The payloads of Invokes, as read.
    Payloads,
    /// Registrations, as read.
    Registrations,
    /// Reservations, as read.
    Reservations,
    /// Configurations, as read and written again.
    Configurations,
    /// The replies that answers become.
    Replies,
}

impl Table {
    /// Adds what a case gives.
    pub fn tell(self, case: &Case, given: &mut Given) -> Result<(), CaseFault> {
        match self {
            Table::Bodies => written::give(Written::Bodies, case, given),
            Table::Headers => written::give(Written::Headers, case, given),
            Table::Refusals => written::give(Written::Refusals, case, given),
            Table::Payloads => readings::give(Reading::Payloads, case, given),
            Table::Registrations => readings::give(Reading::Registrations, case, given),
            Table::Reservations => readings::give(Reading::Reservations, case, given),
            Table::Configurations => readings::give(Reading::Configurations, case, given),
            Table::Replies => rendered::give(case, given),
        }
    }
}

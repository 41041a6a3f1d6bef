//! Worked examples in plain text: a table's file holds cases, a subject computes what each gives,
//! and the lines that differ are printed.
#![tactic(auto)]

mod bytes;
mod case;
mod fault;
mod given;
mod run;
mod table;
mod words;

pub use bytes::push_bytes;
pub use case::{Case, Part};
pub use fault::{CaseFault, TableFault};
pub use given::Given;
pub use run::{Subject, end, judge_case, note_case, read_file, run_file, run_files, tell_count};
pub use words::value_of;

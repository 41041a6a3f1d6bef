//! Heads of calls.

use crate::parts::lines::{Calls, LineFault, Opens, call_opened};
use crate::parts::script_calls::call_of;
use crate::shown::tell;
use arn_ids::Checked;
use case_tables::{Case, CaseFault, Given};
use std::alloc::Global;

/// The account whose calls are read.
#[derive(Drop)]
struct Account {
    config: Checked,
}

impl Calls for Account {
    fn call(&mut self, line: &str, given: &mut Given) -> Result<(), LineFault> {
        let (_, call) = call_of(given.alloc(), &self.config, line)?;
        tell(given, &call.head());
        Ok(())
    }
}

impl Opens for Account {
    fn open(_alloc: Global, config: Checked) -> Result<Account, LineFault> {
        Ok(Account { config })
    }
}

/// Adds what a receipt keeps of calls: each line after the account's is a call of a script, and
/// gives its head.
pub fn give(case: &Case, given: &mut Given) -> Result<(), CaseFault> {
    call_opened::<Account>(case, given)
}

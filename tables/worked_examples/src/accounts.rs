//! The accounts that parts of cases configure.

use arn_ids::Checked;
use case_tables::{CaseFault, Part};
use lambda_wire::{Setup, WireFault, read_config};
use std::alloc::Global;

/// A configuration without a fault, and the salt of its identifiers.
#[derive(Drop)]
pub struct Account {
    pub config: Checked,
    pub salt: u64,
}

/// Reads the configuration in a part's text.
fn setup_of(alloc: Global, part: &Part) -> Result<Setup, CaseFault> {
    match read_config(alloc, part.lines().as_bytes()) {
        Ok(setup) => Ok(setup),
        Err(WireFault::OutOfMemory) => Err(CaseFault::Memory),
        Err(_) => Err(part.malformed("a configuration is wanted")),
    }
}

/// Opens the account that a part's text configures.
pub fn account_of(alloc: Global, part: &Part) -> Result<Account, CaseFault> {
    let Setup { config, salt, .. } = setup_of(alloc, part)?;
    match config.check() {
        Ok(config) => Ok(Account { config, salt }),
        Err(_) => Err(part.malformed("a configuration without a fault is wanted")),
    }
}

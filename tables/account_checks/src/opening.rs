//! The configuration of a case.

ghost use Rattle.std.specs.Prelude.{◌≡◌};
ghost use Rattle.std.specs.Arc.{arc_value};

use crate::lines::malformed;
use arn_ids::Checked;
use case_tables::{Case, CaseFault};
use lambda_wire::{Setup, WireFault, read_config};
use std::alloc::Global;
use std::sync::Arc;

/// One function `f` on environment 1.
const ONE: &str =
    r#"{"account":"123456789012","region":"us-east-2","functions":[{"name":"f","ports":[9001]}]}"#;

/// What an account is opened with. It shares its configuration with the readers of its calls.
#[derive(Drop)]
pub struct Opening {
    pub config: Arc<Checked>,
    pub beside: Arc<Checked>,
    pub salt: u64,
    pub max_entries: u64,
    ghost same: { arc_value beside ≡ arc_value config },
}

/// Reads a setup from a line's text.
fn setup(alloc: Global, line: u64, text: &[u8]) -> Result<Setup, CaseFault> {
    match read_config(alloc, text) {
        Ok(setup) => Ok(setup),
        Err(WireFault::OutOfMemory) => Err(CaseFault::Memory),
        Err(_) => Err(malformed(line, "a configuration is wanted")),
    }
}

/// Reads an opening from a line's text.
fn opening_in(alloc: Global, line: u64, text: &[u8]) -> Result<Opening, CaseFault> {
    let Setup {
        config,
        salt,
        max_entries,
    } = setup(alloc, line, text)?;
    let Ok(config) = config.check() else {
        return Err(malformed(line, "a sound configuration is wanted"));
    };
    let beside = Arc::new(alloc, config)?;
    Ok(Opening {
        config: Arc::try_clone(&beside)?,
        beside,
        salt,
        max_entries,
    })
}

/// Reads the part `open` of a case; by default one function `f` on environment 1.
pub fn opening_of(alloc: Global, case: &Case) -> Result<Opening, CaseFault> {
    match case.part("open") {
        Some(part) => opening_in(alloc, part.line(), part.text().as_bytes()),
        None => opening_in(alloc, case.line(), ONE.as_bytes()),
    }
}

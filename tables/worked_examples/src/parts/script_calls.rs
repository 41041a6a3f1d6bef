//! The calls that lines of scripts stand for.

use crate::parts::lines::{LineFault, number_of, short_of};
use arn_ids::Checked;
use call_model::Call;
use std::alloc::Global;

/// Reads the expiry of an environment, with its moment.
fn expiry(moment: &str, env: &str) -> Result<(u64, Call), LineFault> {
    let env = short_of(env)?;
    Ok((number_of(moment)?, Call::Expire { env }))
}

/// Reads the call of a line, with its moment. A line `MOMENT expire E` stands for an expiry, which
/// scripts cannot contain.
pub fn call_of(alloc: Global, config: &Checked, line: &str) -> Result<(u64, Call), LineFault> {
    if let Some((moment, env)) = line.split_once(" expire ") {
        return expiry(moment, env);
    }
    match script::read_call(alloc, config, true, line.as_bytes()) {
        Ok(Some(call)) => Ok(call),
        Ok(None) => Err(LineFault::Malformed),
        Err(_) => Err(LineFault::Memory),
    }
}

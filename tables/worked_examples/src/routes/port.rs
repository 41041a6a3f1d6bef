//! The port that the requests of a case arrive on.

use crate::accounts::{Account, account_of};
use arn_ids::Checked;
use case_tables::{CaseFault, Part};
use http_routes::Side;
use service_port::Port;
use std::alloc::Global;
use std::sync::Arc;

/// A port, and its configuration.
#[derive(Drop)]
pub struct PortOfCase {
    pub config: Arc<Checked>,
    pub side: Side,
}

/// Reads the port that a part names: `account`, `environment E`, or `handled N`.
fn port_of(part: &Part) -> Result<Port, CaseFault> {
    let words = part.arguments();
    if words == "account" {
        return Ok(Port::Account);
    }
    if let Some(number) = words.strip_prefix("handled ") {
        return match number.parse::<u16>() {
            Ok(number) => Ok(Port::Handled(number)),
            Err(_) => Err(part.malformed("the number of a port is wanted")),
        };
    }
    let Some(number) = words.strip_prefix("environment ") else {
        return Err(part.malformed("account, environment E or handled N is wanted"));
    };
    match number.parse::<u32>() {
        Ok(env) => Ok(Port::Environment(env)),
        Err(_) => Err(part.malformed("the number of an environment is wanted")),
    }
}

/// Opens a port of a configuration, if it has the port.
fn open(
    alloc: Global,
    config: &Arc<Checked>,
    salt: u64,
    port: Port,
    part: &Part,
) -> Result<Side, CaseFault> {
    if let Port::Environment(env) = port {
        if env == 0 || env > config.environments() {
            return Err(part.malformed("there is no such environment"));
        }
    }
    Ok(Side::open(alloc, Arc::try_clone(config)?, salt, port)?)
}

/// Opens the port that one part names, of the configuration in another.
pub fn port_of_case(
    alloc: Global,
    config_part: &Part,
    port_part: &Part,
) -> Result<PortOfCase, CaseFault> {
    let port = port_of(port_part)?;
    let Account { config, salt } = account_of(alloc, config_part)?;
    let config = Arc::new(alloc, config)?;
    match open(alloc, &config, salt, port, port_part) {
        Ok(side) => Ok(PortOfCase { config, side }),
        Err(fault) => Err(fault),
    }
}

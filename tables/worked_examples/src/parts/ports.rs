//! Lists of ports all of whose requests are handed over to handlers.

use crate::parts::lines::{Calls, LineFault, make_calls};
use crate::shown::tell;
use case_tables::{Case, CaseFault, Given};
use service_port::HandledPorts;

/// What reads the lists.
#[derive(Drop)]
struct Reader;

impl Calls for Reader {
    fn call(&mut self, line: &str, given: &mut Given) -> Result<(), LineFault> {
        let Some(text) = line.strip_prefix("read ") else {
            return Err(LineFault::Malformed);
        };
        match HandledPorts::read(given.alloc(), text) {
            Ok(Some(ports)) => tell(given, &ports.numbers()),
            Ok(None) => given.line("no list"),
            Err(_) => given.cut(),
        }
        Ok(())
    }
}

/// Adds what the lines of a case about lists of ports give: `read TEXT` gives the ports that the text lists.
pub fn give(case: &Case, given: &mut Given) -> Result<(), CaseFault> {
    make_calls(case, &mut Reader, given)
}

//! The peers of checks over sockets: the ports that are free, what peers send and receive over a
//! port, and what is shown of it. They do not depend on the service.
#![tactic(auto)]

mod answers;
mod peer;
mod peers;
mod ports;
mod steps;

pub use answers::{View, push_heard};
pub use peer::{Heard, Peer, TURN_MS, exchange};
pub use peers::{Peers, push_came};
pub use ports::Ports;
pub use steps::{Progress, bytes_of, entries_in, number, push_line, request_of, split_word};

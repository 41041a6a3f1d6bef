//! Free ports, and texts in which they have names.

use std::alloc::{AllocError, Global};
use std::io;
use std::net::{IpAddr, Ipv4Addr, Net, SocketAddr, TcpListener, TcpStream};

/// The names of the ports: the account's, followed by one for each environment.
const NAMES: [&str; 5] = ["$invoke", "$1", "$2", "$3", "$4"];

/// The account of the checks' identifiers and configurations. No port's number may occur in it, so
/// that the number identifies the port in a text.
const ACCOUNT: &str = "123456789012";

/// The most ports to try.
const TRIES: u32 = 100;

/// A port that was free, its name, its number as text, and the listener that reserves it.
#[derive(Drop)]
struct Found {
    name: &'static str,
    number: u16,
    text: String,
    listener: Option<TcpListener>,
}

/// The ports of a check.
#[derive(Drop)]
pub struct Ports {
    found: Vec<Found>,
}

/// Finds a free port of this machine, for this name.
fn find<N>(net: &N, alloc: Global, name: &'static str) -> io::Result<Found>
where
    N: Net<Listener = TcpListener, Stream = TcpStream>,
{
    let any = SocketAddr::new(IpAddr::V4(Ipv4Addr::LOCALHOST), 0);
    let listener = TcpListener::bind(net, any)?;
    let number = listener.local_addr()?.port();
    Ok(Found {
        name,
        number,
        text: format!(in alloc; "{number}")?,
        listener: Some(listener),
    })
}

/// Appends two texts.
fn push_both(made: &mut String, first: &str, second: &str) -> Result<(), AllocError> {
    made.push_str(first)?;
    made.push_str(second)
}

/// Replaces each occurrence of `from` in a text by `to`.
fn replaced(alloc: Global, text: &str, from: &str, to: &str) -> Result<String, AllocError> {
    let mut made = String::new(alloc);
    let mut is_first = true;
    for piece in text.split(from) {
        let before = if is_first { "" } else { to };
        push_both(&mut made, before, piece)?;
        is_first = false;
    }
    Ok(made)
}

impl Found {
    /// Whether the port has this name, without its `$`.
    fn is_called(&self, name: &str) -> bool {
        self.name.strip_prefix('$') == Some(name)
    }
}

impl Ports {
    /// Finds a free port for each name. No other program gets one of them until it is released.
    pub fn probe<N>(net: &N, alloc: Global) -> io::Result<Ports>
    where
        N: Net<Listener = TcpListener, Stream = TcpStream>,
    {
        let mut found = Vec::new(alloc);
        for _ in 0..TRIES {
            let Some(name) = NAMES.get(found.len()) else {
                return Ok(Ports { found });
            };
            let port = find(net, alloc, *name)?;
            if !ACCOUNT.contains(port.text.as_str()) {
                found.push(port).map_err(AllocError::from)?;
            }
        }
        Err(io::ErrorKind::AddrInUse.into())
    }

    /// Returns the number of the port with this name, without its `$`.
    pub fn number(&self, name: &str) -> Option<u16> {
        for port in self.found.iter() {
            if port.is_called(name) {
                return Some(port.number);
            }
        }
        None
    }

    /// Releases all ports except the one with this name.
    pub fn release(&mut self, kept: Option<&str>) {
        let kept = kept.unwrap_or("");
        for port in self.found.iter_mut() {
            if !port.is_called(kept) {
                port.listener = None;
            }
        }
    }

    /// Replaces the names of the ports in a text by their numbers.
    pub fn filled(&self, alloc: Global, text: &str) -> Result<String, AllocError> {
        let mut made = String::from_str(alloc, text)?;
        for port in self.found.iter() {
            made = replaced(alloc, made.as_str(), port.name, port.text.as_str())?;
        }
        Ok(made)
    }

    /// Replaces the numbers of the ports in a text by their names.
    pub fn named(&self, alloc: Global, text: &str) -> Result<String, AllocError> {
        let mut made = String::from_str(alloc, text)?;
        for port in self.found.iter() {
            made = replaced(alloc, made.as_str(), port.text.as_str(), port.name)?;
        }
        Ok(made)
    }
}

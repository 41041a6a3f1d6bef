//! A peer of the service: a connection over which a check sends any bytes.

ghost use Rattle.std.specs.Prelude.{◌≤◌, length, IfOk, IfSome};

use std::alloc::{AllocGlobal, Global};
use std::io::{self, Read, Write};
use std::net::{IpAddr, Ipv4Addr, Net, Shutdown, SocketAddr, TcpListener, TcpStream};
use std::time::Duration;

/// How long a read waits for bytes, in milliseconds: one turn.
pub const TURN_MS: u64 = 10;

/// How long a write waits for its peer, in seconds.
const WRITE_SECONDS: u64 = 60;

/// The most bytes in one read, and in one of many writes.
const PIECE: usize = 16_384;

/// Whether a read that failed may succeed later.
fn is_for_now(kind: io::ErrorKind) -> bool {
    matches!(
        kind,
        io::ErrorKind::WouldBlock | io::ErrorKind::TimedOut | io::ErrorKind::Interrupted
    )
}

/// What came over a connection.
#[derive(Drop)]
pub struct Heard {
    pub bytes: Vec<u8>,
    /// Whether the other side has ended.
    pub has_ended: bool,
}

/// A connection to a port of this machine. Dropping it closes it.
#[derive(Drop)]
pub struct Peer {
    stream: TcpStream,
}

/// Makes a connection send at once, and limits how long it waits.
fn prepare(stream: &TcpStream) -> io::Result<()> {
    stream.set_nodelay(true)?;
    stream.set_read_timeout(Some(Duration::from_millis(TURN_MS)))?;
    stream.set_write_timeout(Some(Duration::from_secs(WRITE_SECONDS)))
}

impl Peer {
    /// Connects to a port of this machine.
    pub fn connect<N>(net: &N, port: u16) -> io::Result<Peer>
    where
        N: Net<Listener = TcpListener, Stream = TcpStream>,
    {
        let address = SocketAddr::new(IpAddr::V4(Ipv4Addr::LOCALHOST), port);
        let stream = TcpStream::connect(net, address)?;
        prepare(&stream)?;
        Ok(Peer { stream })
    }

    /// Sends bytes, all of them.
    pub fn send(&mut self, bytes: &[u8]) -> io::Result<()> {
        self.stream.write_all(bytes)
    }

    /// Sends a number of letters.
    pub fn fill(&mut self, count: usize) -> io::Result<()> {
        let letters = [b'x'; PIECE];
        let mut left = count;
        for _ in 0..count {
            let piece = left.min(PIECE);
            if piece == 0 {
                break;
            }
            self.send(&letters[..piece])?;
            left -= piece;
        }
        Ok(())
    }

    /// Announces that nothing more is sent. What comes is still received.
    pub fn end_side(&self) -> io::Result<()> {
        self.stream.shutdown(Shutdown::Write)
    }

    /// Reads once, for a turn at most. Returns how many bytes came: 0 at the other side's end or if
    /// it has gone, and `None` if no bytes came in time.
    fn read_piece(&mut self, buffer: &mut [u8]) -> io::Result<Option<usize>>
        ensures { IfOk result (λ read. IfSome read (λ count. count ≤ length buffer.new)) }
    {
        match self.stream.read(buffer) {
            Ok(count) => Ok(Some(count)),
            Err(fault) if is_for_now(fault.kind()) => Ok(None),
            Err(fault) => match fault.kind() {
                io::ErrorKind::ConnectionReset | io::ErrorKind::BrokenPipe => Ok(Some(0)),
                _ => Err(fault),
            },
        }
    }

    /// Whether bytes come within a number of turns. They are not consumed.
    pub fn await_bytes(&self, turns: u32) -> bool {
        let mut first = [0u8; 1];
        for _ in 0..turns {
            match self.stream.peek(&mut first) {
                Ok(count) => return count > 0,
                Err(fault) if is_for_now(fault.kind()) => {}
                Err(_) => return false,
            }
        }
        false
    }

    /// Returns what comes until the other side's end, unless a number of turns pass without a byte.
    pub fn hear(&mut self, alloc: Global, turns: u32) -> io::Result<Heard> {
        let mut bytes = Vec::new(alloc);
        let mut buffer = [0u8; PIECE];
        let mut left = turns;
        for _ in 0..u64::MAX {
            match self.read_piece(&mut buffer)? {
                None if left == 0 => break,
                None => left = left.saturating_sub(1),
                Some(0) => {
                    return Ok(Heard {
                        bytes,
                        has_ended: true,
                    });
                }
                Some(count) => bytes.extend_from_slice(&buffer[..count])?,
            }
        }
        Ok(Heard {
            bytes,
            has_ended: false,
        })
    }
}

/// Returns what a request gets over its own connection.
pub fn exchange<R>(rt: &R, port: u16, request: &str, turns: u32) -> io::Result<Heard>
where
    R: Net<Listener = TcpListener, Stream = TcpStream> + AllocGlobal,
{
    let mut peer = Peer::connect(rt, port)?;
    peer.send(request.as_bytes())?;
    peer.hear(rt.alloc(), turns)
}

//! A crowd at a port.

use http_connection::Machine;
use socket_peers::exchange;
use std::net::{IpAddr, Ipv4Addr, Net, SocketAddr, TcpListener, TcpStream};
use std::sync::atomic::AtomicBool;
use std::sync::atomic::Ordering::SeqCst;
use std::thread;
use std::time::Duration;

/// The most times that each peer of the crowd connects.
const MOST: u32 = 4_000;

/// How long the crowd runs before the request, in milliseconds.
const AHEAD_MS: u64 = 5;

/// Connects and disconnects up to `MOST` times, until asked to end. Returns whether it was asked.
fn connect_on<N>(net: &N, port: u16, is_over: &AtomicBool) -> bool
where
    N: Net<Listener = TcpListener, Stream = TcpStream>,
{
    let address = SocketAddr::new(IpAddr::V4(Ipv4Addr::LOCALHOST), port);
    for _ in 0..MOST {
        if is_over.load(SeqCst) {
            return true;
        }
        let _ = TcpStream::connect(net, address);
    }
    false
}

/// Crowds a port with two peers, each up to `MOST` times, until they are asked to end. Returns
/// whether both were asked.
fn crowd<R: Machine>(rt: &R, port: u16, is_over: &AtomicBool) -> bool {
    let (one, other) = thread::join(
        rt,
        || connect_on(rt, port, is_over),
        || connect_on(rt, port, is_over),
    );
    one && other
}

/// Whether a request to a port is answered with 200; the crowd is then asked to end.
fn is_answered<R: Machine>(
    rt: &R,
    port: u16,
    request: &str,
    turns: u32,
    is_over: &AtomicBool,
) -> bool {
    thread::sleep(rt, Duration::from_millis(AHEAD_MS));
    let heard = exchange(rt, port, request, turns);
    is_over.store(true, SeqCst);
    heard.is_ok_and(|heard| heard.bytes.as_slice().starts_with(b"HTTP/1.1 200 "))
}

/// Whether a request to one port is answered with 200 while two peers crowd another.
pub fn is_answered_meanwhile<R: Machine>(
    rt: &R,
    crowded: u16,
    port: u16,
    request: &str,
    turns: u32,
) -> bool {
    let is_over = AtomicBool::new(false);
    let (is_crowded, is_answered) = thread::join(
        rt,
        || crowd(rt, crowded, &is_over),
        || is_answered(rt, port, request, turns, &is_over),
    );
    is_crowded && is_answered
}

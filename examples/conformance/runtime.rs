// A runtime in Rust with the handler that `./lambda_local conformance runtime` expects, and nothing but the standard
// library. It relies on the kit's events, which are compact, `do` first and `value` last.
//
// usage: rustc -O -o /tmp/runtime runtime.rs && ../../lambda_local conformance runtime -- /tmp/runtime
use std::collections::HashMap;
use std::io::{BufRead, BufReader, Error, ErrorKind, Read, Result, Write};
use std::net::TcpStream;
use std::time::{Duration, SystemTime, UNIX_EPOCH};
use std::{env, process, thread};

const API: &str = "/2018-06-01/runtime/";

struct Reply {
    status: u16,
    headers: HashMap<String, String>,
    body: Vec<u8>,
}

impl Reply {
    fn header(&self, name: &str) -> &str {
        self.headers.get(name).map_or("", String::as_str)
    }
}

/// A connection to the Runtime API that is kept, and renewed once it has ended.
struct Client {
    address: String,
    stream: Option<BufReader<TcpStream>>,
}

impl Client {
    fn ask(&mut self, method: &str, path: &str, body: Option<&[u8]>, error_type: Option<&str>) -> Result<Reply> {
        let reply = self.try_asking(method, path, body, error_type);
        let closes = reply.as_ref().map_or(true, |reply| reply.header("connection").eq_ignore_ascii_case("close"));
        if closes {
            self.stream = None;
        }
        if matches!(&reply, Ok(reply) if reply.status == 500) {
            process::exit(1);
        }
        reply
    }

    fn try_asking(&mut self, method: &str, path: &str, body: Option<&[u8]>, error_type: Option<&str>) -> Result<Reply> {
        if self.stream.as_ref().is_some_and(has_ended) {
            self.stream = None;
        }
        if self.stream.is_none() {
            let stream = TcpStream::connect(&self.address)?;
            stream.set_nodelay(true)?;
            self.stream = Some(BufReader::new(stream));
        }
        let stream = self.stream.as_mut().expect("it is connected");
        let mut request = format!("{method} {API}{path} HTTP/1.1\r\nHost: {}\r\n", self.address).into_bytes();
        if let Some(name) = error_type {
            request.extend(format!("Lambda-Runtime-Function-Error-Type: {name}\r\n").bytes());
        }
        if let Some(body) = body {
            let length = body.len();
            request.extend(format!("Content-Type: application/json\r\nContent-Length: {length}\r\n").bytes());
        }
        request.extend(b"\r\n");
        request.extend(body.unwrap_or_default());
        stream.get_mut().write_all(&request)?;
        loop {
            let reply = read_reply(stream)?;
            if reply.status / 100 != 1 {
                return Ok(reply);
            }
        }
    }
}

/// Whether the peer has ended the connection meanwhile.
fn has_ended(stream: &BufReader<TcpStream>) -> bool {
    let _ = stream.get_ref().set_nonblocking(true);
    let seen = stream.get_ref().peek(&mut [0]);
    let _ = stream.get_ref().set_nonblocking(false);
    !matches!(seen, Err(fault) if fault.kind() == ErrorKind::WouldBlock)
}

fn read_line(stream: &mut BufReader<TcpStream>) -> Result<String> {
    let mut line = Vec::new();
    if stream.read_until(b'\n', &mut line)? == 0 {
        return Err(Error::from(ErrorKind::UnexpectedEof));
    }
    Ok(String::from_utf8_lossy(&line).trim_end_matches(['\r', '\n']).to_string())
}

fn read_exactly(stream: &mut BufReader<TcpStream>, length: usize, body: &mut Vec<u8>) -> Result<()> {
    let begin = body.len();
    body.resize(begin + length, 0);
    stream.read_exact(&mut body[begin..])
}

fn read_reply(stream: &mut BufReader<TcpStream>) -> Result<Reply> {
    let first = read_line(stream)?;
    let status = first.split(' ').nth(1).and_then(|word| word.parse().ok()).ok_or(ErrorKind::InvalidData)?;
    let mut headers = HashMap::new();
    loop {
        let line = read_line(stream)?;
        let Some((name, value)) = line.split_once(':') else { break };
        headers.insert(name.to_ascii_lowercase(), value.trim().to_string());
    }
    let mut reply = Reply { status, headers, body: Vec::new() };
    if reply.header("transfer-encoding").is_empty() {
        let length = reply.header("content-length").parse().unwrap_or(0);
        read_exactly(stream, length, &mut reply.body)?;
        return Ok(reply);
    }
    loop {
        let size = read_line(stream)?;
        let size = usize::from_str_radix(size.split(';').next().unwrap_or("").trim(), 16);
        let size = size.map_err(|_| ErrorKind::InvalidData)?;
        read_exactly(stream, size, &mut reply.body)?;
        while !read_line(stream)?.is_empty() {} // (the end of a chunk, or the trailers)
        if size == 0 {
            return Ok(reply);
        }
    }
}

fn now() -> i128 {
    SystemTime::now().duration_since(UNIX_EPOCH).map_or(0, |time| time.as_millis() as i128)
}

/// Where some bytes begin in others.
fn place_of(part: &[u8], whole: &[u8]) -> Option<usize> {
    whole.windows(part.len()).position(|window| window == part)
}

fn pause(value: &[u8]) {
    let milliseconds = String::from_utf8_lossy(value).parse().unwrap_or(0);
    thread::sleep(Duration::from_millis(milliseconds));
}

fn context(invocation: &Reply, value: &[u8]) -> Vec<u8> {
    let deadline: i128 = invocation.header("lambda-runtime-deadline-ms").parse().unwrap_or(0);
    let first = deadline - now();
    pause(value);
    let (request, arn) =
        (invocation.header("lambda-runtime-aws-request-id"), invocation.header("lambda-runtime-invoked-function-arn"));
    let (trace, last) = (env::var("_X_AMZN_TRACE_ID").unwrap_or_default(), deadline - now());
    format!(r#"{{"requestId":"{request}","functionArn":"{arn}","traceId":"{trace}","remaining":[{first},{last}]}}"#)
        .into_bytes()
}

/// The texts of a list, as one.
fn joined(value: &[u8]) -> Vec<u8> {
    let mut text = value[1..value.len() - 1].to_vec();
    while let Some(place) = place_of(b"\",\"", &text) {
        text.drain(place..place + 3);
    }
    text
}

/// The report of an error, with "type" and "message" as they are written.
fn report(event: &[u8]) -> Vec<u8> {
    let (kind, message) = (b"\"type\":".as_slice(), b",\"message\":".as_slice());
    let begin = place_of(kind, event).map_or(0, |place| place + kind.len());
    let end = place_of(message, event).unwrap_or(event.len());
    let mut text = b"{\"errorType\":".to_vec();
    text.extend(&event[begin..end]);
    text.extend(b",\"stackTrace\":[],\"errorMessage\":");
    text.extend(&event[end + message.len()..]);
    text
}

/// The handler's output, or the report of its error.
fn handle(invocation: &Reply) -> std::result::Result<Vec<u8>, Vec<u8>> {
    let event = invocation.body.as_slice();
    let Some(rest) = event.strip_prefix(b"{\"do\":\"") else { return Ok(event.to_vec()) };
    let action = &rest[..rest.iter().position(|&letter| letter == b'"').unwrap_or(0)];
    let name = b"\"value\":";
    let value = place_of(name, event).map_or(b"null".as_slice(), |at| &event[at + name.len()..event.len() - 1]);
    Ok(match action {
        b"bytes" => {
            let bytes: Vec<String> = value[1..value.len() - 1].iter().map(u8::to_string).collect();
            format!("[{}]", bytes.join(",")).into_bytes()
        }
        b"large" => {
            let length = String::from_utf8_lossy(value).parse().unwrap_or(0);
            format!("\"{}\"", "x".repeat(length)).into_bytes()
        }
        b"stream" => joined(value),
        b"sleep" => {
            pause(value);
            value.to_vec()
        }
        b"context" => context(invocation, value),
        b"print" => {
            println!("{}", String::from_utf8_lossy(value));
            b"null".to_vec()
        }
        b"exit" => process::exit(String::from_utf8_lossy(value).parse().unwrap_or(1)),
        b"hang" => loop {
            thread::park()
        },
        b"fail" => return Err(report(event)),
        _ => value.to_vec(),
    })
}

fn main() {
    let address = env::var("AWS_LAMBDA_RUNTIME_API").unwrap_or_else(|_| "127.0.0.1:9001".to_string());
    let mut client = Client { address, stream: None };
    let handler = env::var("_HANDLER").unwrap_or_default();
    if handler != "conformance.handler" {
        let body = format!(r#"{{"errorType":"Runtime.NoSuchHandler","errorMessage":"there is no {handler}"}}"#);
        let _ = client.ask("POST", "init/error", Some(body.as_bytes()), Some("Runtime.NoSuchHandler"));
        process::exit(1);
    }
    loop {
        let asked = client.ask("GET", "invocation/next", None, None);
        let Ok(invocation) = asked.or_else(|_| client.ask("GET", "invocation/next", None, None)) else {
            process::exit(1)
        };
        if invocation.status != 200 {
            thread::sleep(Duration::from_millis(50));
            continue;
        }
        env::set_var("_X_AMZN_TRACE_ID", invocation.header("lambda-runtime-trace-id"));
        let request = invocation.header("lambda-runtime-aws-request-id");
        let _ = match handle(&invocation) {
            Ok(output) => client.ask("POST", &format!("invocation/{request}/response"), Some(&output), None),
            Err(report) => {
                client.ask("POST", &format!("invocation/{request}/error"), Some(&report), Some("Runtime.OutOfCheese"))
            }
        };
    }
}

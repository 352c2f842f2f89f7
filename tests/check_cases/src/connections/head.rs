//! Heads of a handshake, as a client writes and reads them.

use anyhow::Result;
use std::alloc::Global;
use std::io::{ErrorKind, Read, Write};
use std::net::TcpStream;

/// The most bytes of an answer's head.
const MAX_HEAD: usize = 4096;

/// Asks for a path with the key of RFC 6455, section 1.3. An offer of `-` is none.
pub fn write_head(alloc: Global, stream: &mut TcpStream, path: &str, offer: &str) -> Result<()> {
    let mut head = format!(in alloc;
        "GET {path} HTTP/1.1\r\nHost: 127.0.0.1\r\nUpgrade: websocket\r\nConnection: Upgrade\r\nSec-WebSocket-Key: dGhlIHNhbXBsZSBub25jZQ==\r\nSec-WebSocket-Version: 13\r\n"
    )?;
    if offer != "-" {
        let line = format!(in alloc; "Sec-WebSocket-Protocol: {offer}\r\n")?;
        head.push_str(line.as_str())?;
    }
    head.push_str("\r\n")?;
    stream.write_all(head.as_bytes())?;
    Ok(())
}

/// What a client reads of an answer's head: `head STATUS ACCEPT SUBPROTOCOL`, `silent` where nothing is
/// there, or `ended`.
pub fn read_head(alloc: Global, stream: &mut TcpStream) -> Result<String> {
    let mut head = Vec::new(alloc);
    let mut byte = [0];
    for _ in 0..MAX_HEAD {
        match stream.read(&mut byte) {
            Ok(0) => return Ok("ended".to_string(alloc)?),
            Ok(_) => head.extend_from_slice(&byte)?,
            Err(error) if error.kind() == ErrorKind::WouldBlock => {
                return Ok("silent".to_string(alloc)?);
            }
            Err(_) => return Ok("ended".to_string(alloc)?),
        }
        if head.as_slice().ends_with(b"\r\n\r\n") {
            return described(alloc, str::from_utf8(head.as_slice())?);
        }
    }
    Ok("ended".to_string(alloc)?)
}

fn described(alloc: Global, head: &str) -> Result<String> {
    let status = head.split(' ').nth(1).unwrap_or("-");
    let accept = field_of(head, "sec-websocket-accept: ");
    let protocol = field_of(head, "sec-websocket-protocol: ");
    Ok(format!(in alloc; "head {status} {accept} {protocol}")?)
}

/// The value of a field, `-` where there is none.
fn field_of<'a>(head: &'a str, name: &str) -> &'a str {
    for line in head.split("\r\n") {
        if let Some(value) = line.strip_prefix(name) {
            return value;
        }
    }
    "-"
}

//! A client's end of a connection.

use crate::connections::head::{read_head, write_head};
use anyhow::{Result, bail};
use std::alloc::Global;
use std::io::{ErrorKind, Write};
use std::mem;
use std::net::TcpStream;
use tungstenite::{Bytes, Error, MaskKeys, Message, Role, WebSocket};

/// One masking key for all frames: that of the examples of RFC 6455, section 5.7.
#[derive(Drop)]
pub struct SampleKey;

impl MaskKeys for SampleKey {
    fn next_key(&mut self) -> [u8; 4] {
        [0x37, 0xfa, 0x21, 0x3d]
    }
}

/// How far the connection has come.
#[derive(Drop)]
enum Link {
    /// The request is sent, the answer isn't read.
    Asking(TcpStream),
    /// The handshake is done.
    Open(WebSocket<TcpStream, SampleKey>),
    /// The client has dropped it.
    Gone,
}

/// A client.
#[derive(Drop)]
pub struct Client {
    pub name: String,
    link: Link,
}

impl Client {
    /// A client that asks for a path, and offers those subprotocols, if any.
    pub fn ask(
        alloc: Global,
        name: &str,
        stream: TcpStream,
        path: &str,
        offer: &str,
    ) -> Result<Client> {
        let mut stream = stream;
        write_head(alloc, &mut stream, path, offer)?;
        Client::connect(alloc, name, stream)
    }

    /// A client that has sent nothing yet.
    pub fn connect(alloc: Global, name: &str, stream: TcpStream) -> Result<Client> {
        stream.set_nodelay(true)?;
        stream.set_nonblocking(true)?;
        Ok(Client {
            name: name.to_string(alloc)?,
            link: Link::Asking(stream),
        })
    }

    /// Sends a message. What finds no room is sent by `flush`.
    pub fn send(&mut self, message: Message) -> bool {
        match &mut self.link {
            Link::Open(socket) => socket.send(message).is_ok(),
            Link::Asking(_) | Link::Gone => false,
        }
    }

    /// Sends what is left of messages. Whether nothing is left.
    pub fn flush(&mut self) -> bool {
        match &mut self.link {
            Link::Open(socket) => socket.flush().is_ok(),
            Link::Asking(_) | Link::Gone => false,
        }
    }

    /// Closes the connection, with no code.
    pub fn close(&mut self) -> bool {
        match &mut self.link {
            Link::Open(socket) => socket.close(None).is_ok(),
            Link::Asking(_) | Link::Gone => false,
        }
    }

    /// Sends bytes as they are.
    pub fn send_raw(&mut self, bytes: &[u8]) -> bool {
        match &mut self.link {
            Link::Open(socket) => socket.get_mut().write_all(bytes).is_ok(),
            Link::Asking(stream) => stream.write_all(bytes).is_ok(),
            Link::Gone => false,
        }
    }

    /// Its socket, once the handshake is done.
    pub fn socket(&mut self) -> Result<&mut WebSocket<TcpStream, SampleKey>> {
        match &mut self.link {
            Link::Open(socket) => Ok(socket),
            Link::Asking(_) | Link::Gone => bail!("no socket"),
        }
    }

    /// Drops the connection.
    pub fn drop_link(&mut self) {
        self.link = Link::Gone;
    }

    /// What it reads next, as scripts write it.
    pub fn next(&mut self, alloc: Global) -> Result<String> {
        match mem::replace(&mut self.link, Link::Gone) {
            Link::Asking(stream) => self.next_of_head(alloc, stream),
            Link::Open(socket) => self.next_of_socket(alloc, socket),
            Link::Gone => Ok("gone".to_string(alloc)?),
        }
    }

    fn next_of_socket(
        &mut self,
        alloc: Global,
        socket: WebSocket<TcpStream, SampleKey>,
    ) -> Result<String> {
        let mut socket = socket;
        let read = socket.read();
        self.link = Link::Open(socket);
        match read {
            Ok(message) => describe(alloc, &message),
            Err(error) if is_silence(&error) => Ok("silent".to_string(alloc)?),
            Err(_) => Ok("ended".to_string(alloc)?),
        }
    }

    fn next_of_head(&mut self, alloc: Global, stream: TcpStream) -> Result<String> {
        let mut stream = stream;
        let head = read_head(alloc, &mut stream)?;
        if head.as_str().starts_with("head 101 ") {
            let keys = SampleKey;
            let socket = WebSocket::from_raw_socket(alloc, stream, keys, Role::Client, None);
            self.link = Link::Open(socket);
        } else {
            self.link = Link::Asking(stream);
        }
        Ok(head)
    }
}

/// A message, as scripts write it.
fn describe(alloc: Global, message: &Message) -> Result<String> {
    match message {
        Message::Text(text) => {
            let text = text.as_str();
            Ok(format!(in alloc; "< {text}")?)
        }
        Message::Pong(bytes) => describe_bytes(alloc, "pong", bytes),
        Message::Ping(bytes) => describe_bytes(alloc, "ping", bytes),
        Message::Binary(bytes) => describe_bytes(alloc, "binary", bytes),
        Message::Close(Some(frame)) => {
            let code = u16::from(frame.code);
            Ok(format!(in alloc; "closed {code}")?)
        }
        Message::Close(None) => Ok("closed -".to_string(alloc)?),
    }
}

fn describe_bytes(alloc: Global, kind: &str, bytes: &Bytes) -> Result<String> {
    let text = str::from_utf8(bytes.as_slice())?;
    Ok(format!(in alloc; "{kind} {text}")?)
}

/// Whether a read found nothing yet.
fn is_silence(error: &Error) -> bool {
    match error {
        Error::Io(error) => error.kind() == ErrorKind::WouldBlock,
        _ => false,
    }
}

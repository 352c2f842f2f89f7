//! Scripts of connections.

use crate::connections::client::Client;
use crate::connections::server::Server;
use crate::connections::station::Station;
use crate::tally::Tally;
use anyhow::{Context, Result, bail};
use std::alloc::Global;
use std::net::TcpStream;
use std::thread;
use std::time::Duration;
use tungstenite::{Bytes, Message};

/// How many turns more a line waits for what it is to give. Loopback may deliver bytes late.
const MORE_TURNS: usize = 2_000;

/// One script as it goes.
#[derive(Drop)]
struct Script {
    alloc: Global,
    server: Server,
    clients: Vec<Client>,
    stations: Vec<Station>,
}

/// Runs the scripts of a text, each with a server of its own. A line `== TITLE` begins one.
pub fn check_all(rt: &HostRuntime, text: &str) -> Result<Tally> {
    let mut tally = Tally::default();
    let mut script = Script::new(rt)?;
    for (place, line) in text.lines().enumerate() {
        let number = place.saturating_add(1);
        if line.starts_with("== ") {
            script = Script::new(rt)?;
        } else if !line.is_empty() && !line.starts_with('#') {
            tally.count(script.passes(rt, number, line)?);
        }
    }
    Ok(tally)
}

impl Script {
    fn new(rt: &HostRuntime) -> Result<Script> {
        Ok(Script {
            alloc: rt.alloc(),
            server: Server::new(rt)?,
            clients: Vec::new(rt.alloc()),
            stations: Vec::new(rt.alloc()),
        })
    }

    /// Whether a line gives what it is to give; if not, prints what it gave.
    fn passes(&mut self, rt: &HostRuntime, number: usize, line: &str) -> Result<bool> {
        let wrong = self.run(rt, line).context(format_args!("line {number}"))?;
        let Some(got) = wrong else {
            return Ok(true);
        };
        println!(rt; "line {number}\n  wanted {line}\n  got    {got}")?;
        Ok(false)
    }

    /// Runs one line. `Some` is what it gave in place of what it is to give.
    fn run(&mut self, rt: &HostRuntime, line: &str) -> Result<Option<String>> {
        let (word, rest) = line.split_once(' ').unwrap_or((line, ""));
        match word {
            "at" => {
                self.server.set_moment(rest.parse()?)?;
                Ok(None)
            }
            "hub" => {
                self.server.hand(rest)?;
                Ok(None)
            }
            "turn" => self.turn(rt),
            "turns" => self.turns(rt, rest.parse()?),
            "count" => self.count(rt, rest),
            "session" => self.session(rest),
            _ => self.run_of(rt, word, rest),
        }
    }

    /// One turn of the server, after a millisecond in which bytes that were sent arrive.
    fn turn(&mut self, rt: &HostRuntime) -> Result<Option<String>> {
        thread::sleep(rt, Duration::from_millis(1));
        match self.server.turn(rt) {
            Ok(()) => Ok(None),
            Err(fault) => Ok(Some(format!(in self.alloc; "fault {fault}")?)),
        }
    }

    fn turns(&mut self, rt: &HostRuntime, times: u64) -> Result<Option<String>> {
        for _ in 0..times {
            if let Some(fault) = self.turn(rt)? {
                return Ok(Some(fault));
            }
        }
        Ok(None)
    }

    /// How many peers the server has.
    fn count(&mut self, rt: &HostRuntime, wanted: &str) -> Result<Option<String>> {
        let wanted: usize = wanted.parse()?;
        for _ in 0..MORE_TURNS {
            if self.server.count() == wanted {
                return Ok(None);
            }
            self.turn(rt)?;
        }
        let count = self.server.count();
        Ok(Some(format!(in self.alloc; "{count}")?))
    }

    /// What a client reads next.
    fn read(&mut self, rt: &HostRuntime, name: &str, wanted: &str) -> Result<Option<String>> {
        for _ in 0..MORE_TURNS {
            let got = client_of(&mut self.clients, name)?.next(self.alloc)?;
            if got.as_str() == wanted {
                return Ok(None);
            }
            if got.as_str() != "silent" {
                return Ok(Some(got));
            }
            self.turn(rt)?;
        }
        Ok(Some("silent".to_string(self.alloc)?))
    }

    /// A line of a client: something that it does, or what it reads next.
    fn run_of(&mut self, rt: &HostRuntime, name: &str, rest: &str) -> Result<Option<String>> {
        let (word, words) = rest.split_once(' ').unwrap_or((rest, ""));
        match word {
            "open" => self.open(rt, name, words),
            "connect" => self.connect(rt, name),
            "long" => self.long(rt, name, words, false),
            "long-binary" => self.long(rt, name, words, true),
            ">" | "ping" | "binary" | "raw" | "line" | "letters" | "close" | "drop" => {
                self.send(name, word, words)
            }
            "sim" => self.simulate(name),
            "drove" => self.drive(rt, name, rest),
            "done" => self.done(name),
            _ => self.read(rt, name, rest),
        }
    }

    fn send(&mut self, name: &str, word: &str, words: &str) -> Result<Option<String>> {
        let alloc = self.alloc;
        let client = client_of(&mut self.clients, name)?;
        let is_sent = match word {
            ">" => client.send(Message::text(alloc, words)?),
            "ping" => client.send(Message::Ping(bytes_of(alloc, words)?)),
            "binary" => client.send(Message::Binary(bytes_of(alloc, words)?)),
            "raw" => client.send_raw(unhex(alloc, words)?.as_slice()),
            "line" => client.send_raw(words.as_bytes()) && client.send_raw(b"\r\n"),
            "letters" => client.send_raw(letters(alloc, words)?.as_bytes()),
            "close" => client.close(),
            _ => {
                client.drop_link();
                true
            }
        };
        if is_sent {
            return Ok(None);
        }
        Ok(Some("not sent".to_string(alloc)?))
    }

    /// Runs a session over the hub alone: the operator, the station, and how many calls it makes.
    fn session(&mut self, words: &str) -> Result<Option<String>> {
        let (op, rest) = words.split_once(' ').unwrap_or((words, ""));
        let (name, wanted) = rest.split_once(' ').unwrap_or((rest, ""));
        let mut station = Station::new(self.alloc, name)?;
        let calls = station.run(self.alloc, &mut self.server, op)?;
        let got = format!(in self.alloc; "{calls}")?;
        if station.is_done() && got.as_str() == wanted {
            return Ok(None);
        }
        Ok(Some(got))
    }

    /// The client is a simulated station from now on.
    fn simulate(&mut self, name: &str) -> Result<Option<String>> {
        self.stations.push(Station::new(self.alloc, name)?)?;
        Ok(None)
    }

    /// Drives a simulated station once, or again until it reads what was sent to it.
    fn drive(&mut self, rt: &HostRuntime, name: &str, wanted: &str) -> Result<Option<String>> {
        let moment = self.server.moment();
        for _ in 0..MORE_TURNS {
            let socket = client_of(&mut self.clients, name)?.socket()?;
            let got = station_of(&mut self.stations, name)?.drive(self.alloc, socket, moment)?;
            if got.as_str() == wanted {
                return Ok(None);
            }
            if got.as_str() != "drove -" {
                return Ok(Some(got));
            }
            self.turn(rt)?;
        }
        Ok(Some("drove -".to_string(self.alloc)?))
    }

    /// The session of a simulated station has ended.
    fn done(&mut self, name: &str) -> Result<Option<String>> {
        if station_of(&mut self.stations, name)?.is_done() {
            return Ok(None);
        }
        Ok(Some("not done".to_string(self.alloc)?))
    }

    fn open(&mut self, rt: &HostRuntime, name: &str, words: &str) -> Result<Option<String>> {
        let (path, offer) = words.split_once(' ').unwrap_or((words, "-"));
        let stream = TcpStream::connect(rt, ("127.0.0.1", self.server.port()?))?;
        let client = Client::ask(self.alloc, name, stream, path, offer)?;
        self.clients.push(client)?;
        Ok(None)
    }

    fn connect(&mut self, rt: &HostRuntime, name: &str) -> Result<Option<String>> {
        let stream = TcpStream::connect(rt, ("127.0.0.1", self.server.port()?))?;
        self.clients
            .push(Client::connect(self.alloc, name, stream)?)?;
        Ok(None)
    }

    /// Sends a message of so many letters, with turns of the server while the stream is full.
    fn long(
        &mut self,
        rt: &HostRuntime,
        name: &str,
        size: &str,
        is_binary: bool,
    ) -> Result<Option<String>> {
        let message = message_of(self.alloc, size, is_binary)?;
        let mut is_sent = client_of(&mut self.clients, name)?.send(message);
        for _ in 0..10_000 {
            if is_sent {
                return Ok(None);
            }
            self.turn(rt)?;
            is_sent = client_of(&mut self.clients, name)?.flush();
        }
        Ok(Some("not sent".to_string(self.alloc)?))
    }
}

fn message_of(alloc: Global, size: &str, is_binary: bool) -> Result<Message> {
    let text = letters(alloc, size)?;
    if is_binary {
        return Ok(Message::Binary(bytes_of(alloc, text.as_str())?));
    }
    Ok(Message::text(alloc, text.as_str())?)
}

/// The last client of that name.
fn client_of<'a>(clients: &'a mut [Client], name: &str) -> Result<&'a mut Client> {
    match clients
        .iter_mut()
        .rev()
        .find(|client| client.name.as_str() == name)
    {
        Some(client) => Ok(client),
        None => bail!("no client {name}"),
    }
}

/// The simulated station of that client.
fn station_of<'a>(stations: &'a mut [Station], name: &str) -> Result<&'a mut Station> {
    match stations
        .iter_mut()
        .find(|station| station.name.as_str() == name)
    {
        Some(station) => Ok(station),
        None => bail!("no station {name}"),
    }
}

fn letters(alloc: Global, count: &str) -> Result<String> {
    let count: usize = count.parse()?;
    let mut text = String::new(alloc);
    for _ in 0..count {
        text.push('x')?;
    }
    Ok(text)
}

fn bytes_of(alloc: Global, text: &str) -> Result<Bytes> {
    Ok(Bytes::copy_from_slice(alloc, text.as_bytes())?)
}

/// The bytes that pairs of hexadecimal digits write.
fn unhex(alloc: Global, digits: &str) -> Result<Vec<u8>> {
    let mut bytes = Vec::new(alloc);
    for pair in digits.split(' ') {
        bytes.push(u8::from_str_radix(pair, 16)?)?;
    }
    Ok(bytes)
}

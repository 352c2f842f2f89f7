//! The server's end: a hub in memory, and its gateway.

use anyhow::{Result, bail};
use hub::{Event, Fault, Hub, Out};
use lines::{Line, print_out, read_line};
use ocpp_types::{Mem, Moment, Text};
use station_calls::Echo;
use std::alloc::Global;
use std::fs::File;
use std::net::{TcpListener, TcpStream};
use store_mem::MemStore;
use turn_hub::{Commits, TurnHub};
use ws_server::{Gateway, Lobby, Reactor, State, TurnServer, TurnTime, Written};

/// A hub of the operators ACME and BETA, its gateway and its listener.
#[derive(Drop)]
pub struct Server {
    alloc: Global,
    operators: Vec<Text>,
    turns: TurnServer<TcpStream, MemStore, Echo, File>,
    listener: TcpListener,
    moment: Moment,
}

/// Serves each peer once in a turn, by place. Its streams hold nothing.
#[derive(Drop)]
struct EachPeer {
    next: usize,
    fault: Option<Fault>,
    written: Written,
}

impl Reactor<TcpStream, HostRuntime> for EachPeer {
    ghost written = { λ reactor. reactor.written };

    fn begin(&mut self) {
        self.written = Written::Held;
    }

    fn begin_service(&mut self, _rt: &HostRuntime, _gateway: &Gateway<TcpStream>) {
        self.next = 0;
    }

    fn next(&mut self, _rt: &HostRuntime, gateway: &Gateway<TcpStream>) -> Option<usize> {
        if self.next >= gateway.count() {
            return None;
        }
        self.next += 1;
        Some(self.next - 1)
    }

    fn served(&mut self, _rt: &HostRuntime, _gateway: &Gateway<TcpStream>, _events: u64) {}

    fn committed(&mut self, _rt: &HostRuntime) {}

    fn failed(&mut self, fault: &Fault, _state: State) {
        self.fault = Some(*fault);
    }

    fn give(&mut self) {
        if matches!(self.written, Written::Held) {
            self.written = Written::Given;
        }
    }

    fn drop_turn(&mut self) {
        self.written = Written::Dropped;
    }
}

impl Server {
    /// A server with no records and no connection, on a port that the system chooses.
    pub fn new(rt: &HostRuntime) -> Result<Server> {
        let alloc = rt.alloc();
        let moment = moment_at(alloc, 0)?;
        let listener = TcpListener::bind(rt, ("127.0.0.1", 0_u16))?;
        listener.set_nonblocking(true)?;
        let operators = operators(alloc)?;
        let lobby = Lobby::new(alloc, Vec::new(alloc))?;
        Ok(Server {
            alloc,
            operators,
            turns: TurnServer::new(
                TurnHub::new(alloc, hub(alloc)?, 0, Commits::Each),
                Gateway::new(alloc),
                lobby,
            ),
            listener,
            moment,
        })
    }

    /// The port that it listens on.
    pub fn port(&self) -> Result<u16> {
        Ok(self.listener.local_addr()?.port())
    }

    /// Sets its clock.
    pub fn set_moment(&mut self, seconds: u64) -> Result<()> {
        self.moment = moment_at(self.alloc, seconds)?;
        Ok(())
    }

    /// What its clock shows.
    pub fn moment(&self) -> Moment {
        self.moment
    }

    /// How many peers its gateway has.
    pub fn count(&self) -> usize {
        self.turns.gateway.count()
    }

    /// Hands an operator's line to the hub, and tells its outputs.
    pub fn hand(&mut self, line: &str) -> Result<()> {
        for out in &self.outputs(line)? {
            self.turns.gateway.tell(out);
        }
        Ok(())
    }

    /// Hands an operator's line to the hub alone. Its outputs, as lines.
    pub fn ask(&mut self, line: &str) -> Result<Vec<String>> {
        let mut lines = Vec::new(self.alloc);
        for out in &self.outputs(line)? {
            lines.push(print_out(self.alloc, out)?)?;
        }
        Ok(lines)
    }

    fn outputs(&mut self, line: &str) -> Result<Vec<Out>> {
        let event = self.event(line)?;
        Ok(self.turns.hub.handle(&event, "")?)
    }

    fn event(&self, line: &str) -> Result<Event> {
        let seconds = self.moment.seconds();
        let line = format!(in self.alloc; "{seconds} {line}")?;
        match read_line(self.alloc, self.operators.as_slice(), line.as_bytes())? {
            Line::Event(event) => Ok(event),
            Line::Nothing | Line::Bad => bail!("bad line {line}"),
        }
    }

    /// Accepts one connection, if there is one.
    fn accept(&mut self) -> Mem<()> {
        let Ok((stream, address)) = self.listener.accept() else {
            return Ok(());
        };
        if stream.set_nonblocking(true).is_ok() && stream.set_nodelay(true).is_ok() {
            self.turns
                .lobby
                .enter(stream, Some(address), self.moment.seconds())?;
        }
        Ok(())
    }

    /// One turn: accepts one connection, polls those that wait, and serves each peer.
    pub fn turn(&mut self, rt: &HostRuntime) -> Result<(), Fault> {
        self.accept()?;
        let mut reactor = EachPeer {
            next: 0,
            fault: None,
            written: Written::Held,
        };
        let time = TurnTime {
            moment: self.moment,
            second: self.moment.seconds(),
        };
        self.turns.turn(rt, &mut reactor, time, "");
        match reactor.fault {
            Some(fault) => Err(fault),
            None => Ok(()),
        }
    }
}

fn hub(alloc: Global) -> Result<Hub<MemStore, Echo>> {
    let operators = operators(alloc)?;
    let mut vendors = Vec::new(alloc);
    vendors.push(Echo { alloc })?;
    match Hub::new(alloc, MemStore::new(alloc), operators, vendors) {
        Ok(hub) => Ok(hub),
        Err(_) => bail!("bad operators"),
    }
}

fn operators(alloc: Global) -> Result<Vec<Text>> {
    let mut operators = Vec::new(alloc);
    operators.push(Text::copy_of(alloc, "ACME")?)?;
    operators.push(Text::copy_of(alloc, "BETA")?)?;
    Ok(operators)
}

fn moment_at(alloc: Global, seconds: u64) -> Result<Moment> {
    match Moment::new(seconds) {
        Some(moment) => Ok(moment),
        None => bail!("{seconds} is no moment"),
    }
}

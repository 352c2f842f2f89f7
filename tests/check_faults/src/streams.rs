//! Connections whose stream or store fails.

use crate::scripts::{events, hub_of, run};
use failing_store::Failing;
use hub::{Fault, Hub};
use hub_rows::Store;
use ocpp_types::{Moment, Text};
use ready_streams::Served;
use station_calls::Echo;
use std::alloc::Global;
use std::cell::RefCell;
use std::fs::File;
use std::io;
use std::io::{Error, ErrorKind, Read, Write};
use std::rc::Rc;
use std::test::Fail;
use store_mem::MemStore;
use tungstenite::{NoMask, Role, WebSocket};
use turn_hub::{Commits, TurnHub};
use ws_peers::Route;
use ws_server::{Arrival, Gateway};

/// What one client sends, and nothing more: a read past it would block.
#[derive(Drop)]
struct Stream {
    /// How many bytes are read.
    taken: usize,
    /// How many calls come before the one that fails.
    before: u64,
    /// What it is sent.
    sent: Sent,
}

/// The bytes that a client is sent.
type Sent = Rc<RefCell<Vec<u8>>>;

impl Stream {
    fn count_call(&mut self) -> io::Result<()> {
        if self.before == 0 {
            return Err(Error::from(ErrorKind::ConnectionReset));
        }
        self.before -= 1;
        Ok(())
    }
}

impl Served for Stream {
    fn set_place(&self, _place: usize) {}

    fn set_room(&self, _bytes: usize) {}
}

impl Read for Stream {
    fn read(&mut self, buf: &mut [u8]) -> io::Result<usize> {
        self.count_call()?;
        let rest = SENT.get(self.taken..).unwrap_or(b"");
        let count = buf.len().min(rest.len());
        if count == 0 {
            return Err(Error::from(ErrorKind::WouldBlock));
        }
        buf[..count].copy_from_slice(&rest[..count]);
        self.taken = self.taken.saturating_add(count);
        Ok(count)
    }
}

impl Write for Stream {
    fn write(&mut self, buf: &[u8]) -> io::Result<usize> {
        self.count_call()?;
        let Ok(mut sent) = self.sent.try_borrow_mut() else {
            return Err(Error::from(ErrorKind::Other));
        };
        sent.extend_from_slice(buf)?;
        Ok(buf.len())
    }

    fn flush(&mut self) -> io::Result<()> {
        self.count_call()
    }
}

/// A boot, then a heartbeat, each in a frame whose masking key is 0 (RFC 6455, section 5.2).
const SENT: &[u8] =
    b"\x81\xcb\0\0\0\0[2,\"1\",\"BootNotification\",{\"chargePointVendor\":\"V\",\"chargePointModel\":\"M\"}]\x81\x96\0\0\0\0[2,\"2\",\"Heartbeat\",{}]";

/// The calls of a stream in four turns: two reads, and a write and a flush for each answer, before the
/// two reads of nothing.
const CALLS: u64 = 7;

/// CP01 and CP02 are added.
const ADDED: &str =
    "1704067200 ACME station add CP01 Accepted 300\n1704067200 ACME station add CP02 Accepted 300\n";

/// CP01 is added: two calls of the store. Its connection asks the store once, and its boot twice.
const ONE_ADDED: &str = "1704067200 ACME station add CP01 Accepted 300\n";

const CALL: &str = "1704067200 ACME call CP01 ClearCache {}\n";

/// Asked after the turns.
const ASKED: &str =
    "1704067200 ACME list stations\n1704067200 ACME call CP01 ClearCache {}\n1704067200 ACME call CP02 ClearCache {}\n";

/// What follows the row of CP01: CP02 has booted and is connected, and CP01 isn't.
const SECOND: &str =
    "ACME row station CP02 Accepted Accepted 300 {\"chargePointModel\":\"M\",\"chargePointVendor\":\"V\"}\nACME ok\nACME refused 7 NotConnected\nACME ok 1\nACME CP02 send [2,\"1\",\"ClearCache\",{}]\n";

/// Where both are connected.
const BOTH: &str =
    "ACME ok 1\nACME CP01 send [2,\"1\",\"ClearCache\",{}]\nACME ok 1\nACME CP02 send [2,\"1\",\"ClearCache\",{}]\n";

fn socket(alloc: Global, before: u64, sent: Sent) -> WebSocket<Stream, NoMask> {
    let stream = Stream {
        taken: 0,
        before,
        sent,
    };
    WebSocket::from_raw_socket(alloc, stream, NoMask, Role::Server, None)
}

fn nothing_sent(alloc: Global) -> Result<Sent, Fail> {
    Ok(Rc::new(alloc, RefCell::new(Vec::new(alloc)))?)
}

fn station(alloc: Global, name: &str) -> Result<Arrival, Fail> {
    let op = Text::copy_of(alloc, "ACME")?;
    let name = Text::copy_of(alloc, name)?;
    Ok(Arrival {
        route: Route::Station(op, name),
        has_subprotocol: true,
        address: None,
    })
}

fn moment(seconds: u64) -> Result<Moment, Fail> {
    Ok(Moment::new(seconds).ok_or(Fault::NoMemory)?)
}

fn no_vendors(alloc: Global) -> Vec<Echo> {
    Vec::new(alloc)
}

/// A hub that takes events in turns, without a journal.
fn in_turns<S: Store + Drop>(alloc: Global, hub: Hub<S, Echo>) -> TurnHub<S, Echo, File> {
    TurnHub::new(alloc, hub, 0, Commits::Each)
}

/// Serves the peers at two places, and those that have ended leave.
fn turn<T: Read + Write + Served + Drop, S: Store + Drop>(
    gateway: &mut Gateway<T>,
    hub: &mut TurnHub<S, Echo, File>,
    at: Moment,
) -> Result<(), Fault> {
    for place in 0..2 {
        gateway.serve_at(hub, place, at)?;
    }
    gateway.part_and_tick(hub, at)
}

/// What the operator is then answered, and what CP02 was sent, where a call of CP01's stream fails.
fn served(alloc: Global, before: u64) -> Result<(String, Sent), Fail> {
    let mut hub = hub_of(alloc, MemStore::new(alloc), no_vendors(alloc))?;
    let added = events(alloc, ADDED)?;
    let _added = run(alloc, &mut hub, added.as_slice())?;
    let mut hub = in_turns(alloc, hub);
    let at = moment(1704067200)?;
    let mut gateway = Gateway::new(alloc);
    let first = socket(alloc, before, nothing_sent(alloc)?);
    gateway.admit(&mut hub, first, station(alloc, "CP01")?, at)?;
    let sent = nothing_sent(alloc)?;
    let second = socket(alloc, u64::MAX, Rc::clone(&sent)?);
    gateway.admit(&mut hub, second, station(alloc, "CP02")?, at)?;
    for _ in 0..4 {
        turn(&mut gateway, &mut hub, at)?;
    }
    let mut hub = hub.into_hub();
    let asked = events(alloc, ASKED)?;
    let text = run(alloc, &mut hub, asked.as_slice())?.text;
    Ok((text, sent))
}

fn is_same(first: &Sent, second: &Sent) -> bool {
    match (first.try_borrow(), second.try_borrow()) {
        (Ok(first), Ok(second)) => first.as_slice() == second.as_slice(),
        _ => false,
    }
}

#[test]
fn a_stream_that_fails_ends_its_own_connection_alone(rt: HostRuntime) -> Result<(), Fail> {
    let alloc = rt.alloc();
    let (text, wanted) = served(alloc, u64::MAX)?;
    assert!(rt; text.as_str().ends_with(BOTH));
    for before in 0..CALLS {
        let (text, sent) = served(alloc, before)?;
        assert!(rt;
            text.as_str().ends_with(SECOND) && is_same(&sent, &wanted),
            "{before}"
        );
    }
    Ok(())
}

/// What a call to CP01 is answered after a turn whose boot met a failing store, and the next turn.
fn answered(alloc: Global, before: u64) -> Result<String, Fail> {
    let store = Failing::new(MemStore::new(alloc), before);
    let mut hub = hub_of(alloc, store, no_vendors(alloc))?;
    let added = events(alloc, ONE_ADDED)?;
    let _added = run(alloc, &mut hub, added.as_slice())?;
    let mut hub = in_turns(alloc, hub);
    let at = moment(1704067200)?;
    let mut gateway = Gateway::new(alloc);
    let socket = socket(alloc, u64::MAX, nothing_sent(alloc)?);
    gateway.admit(&mut hub, socket, station(alloc, "CP01")?, at)?;
    let is_fault = matches!(turn(&mut gateway, &mut hub, at), Err(Fault::Store));
    turn(&mut gateway, &mut hub, at)?;
    if !is_fault || gateway.count() != 0 {
        return Ok(String::new(alloc));
    }
    let mut hub = hub.into_hub();
    let call = events(alloc, CALL)?;
    Ok(run(alloc, &mut hub, call.as_slice())?.text)
}

#[test]
fn a_turn_that_met_a_failing_store_ends_that_connection(rt: HostRuntime) -> Result<(), Fail> {
    let alloc = rt.alloc();
    for before in 3..5 {
        let text = answered(alloc, before)?;
        assert_eq!(rt; text.as_str(), "ACME refused 7 NotConnected\n", "{before}");
    }
    Ok(())
}

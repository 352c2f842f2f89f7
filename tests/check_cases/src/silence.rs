//! Which peers are silent, by a clock that is moved: streams over loopback, in this thread.

use crate::tally::Tally;
use anyhow::{Context, Result};
use ready_streams::{ReadyStream, Served, Streams};
use std::io::{Read, Write};
use std::net::{SocketAddr, TcpStream};
use std::time::Duration;

/// Where the streams listen.
const PORT: u16 = 9473;

/// The seconds of silence before a ping is due, and after it before the end is.
const PING_AFTER: u64 = 120;

const ANSWER_WITHIN: u64 = 60;

/// Each moment at which silent peers are sought, who has sent a byte just before, and the places that are found.
const MOMENTS: &[(u64, &[usize], &[usize], &[usize])] = &[
    (100, &[0], &[], &[]),
    (119, &[], &[], &[]),
    (120, &[], &[1], &[]),
    (130, &[], &[], &[]),
    (150, &[1], &[], &[]),
    (219, &[], &[], &[]),
    (220, &[], &[0], &[]),
    (269, &[], &[], &[]),
    (270, &[], &[1], &[]),
    (279, &[], &[], &[]),
    (280, &[], &[], &[0]),
    (281, &[], &[], &[0]),
    (290, &[0], &[], &[]),
    (329, &[], &[], &[]),
    (330, &[], &[], &[1]),
    (409, &[], &[], &[1]),
    (410, &[], &[0], &[1]),
];

/// Whether silent peers are found as they are to be.
pub fn check(rt: &HostRuntime) -> Result<bool> {
    let tally = check_moments(rt)?;
    let Tally { passed, failed } = tally;
    println!(rt; "silence: {passed} moments passed, {failed} failed")?;
    Ok(failed == 0)
}

fn check_moments(rt: &HostRuntime) -> Result<Tally> {
    let mut tally = Tally::default();
    let address = SocketAddr::from(([127, 0, 0, 1], PORT));
    let mut streams = Streams::listen(rt.alloc(), rt, address)?;
    streams.set_second(0);
    let mut clients = Vec::new(rt.alloc());
    let mut peers = Vec::new(rt.alloc());
    for place in 0..2 {
        clients.push(TcpStream::connect(rt, address)?)?;
        let peer = accepted(&mut streams)?;
        peer.set_place(place);
        peers.push(peer)?;
    }
    for (second, senders, pinged, ended) in MOMENTS {
        streams.set_second(*second);
        for sender in *senders {
            hear(
                &mut streams,
                clients.as_mut_slice(),
                peers.as_mut_slice(),
                *sender,
            )?;
        }
        streams.find_silent(PING_AFTER, ANSWER_WITHIN);
        let found = streams.to_ping() == *pinged && streams.to_end() == *ended;
        if !found {
            println!(rt;
                "second {second}: to ping {:?}, to end {:?}",
                streams.to_ping(),
                streams.to_end()
            )?;
        }
        tally.count(found);
    }
    Ok(tally)
}

/// The stream of the next connection. A read has found that nothing has come yet.
fn accepted(streams: &mut Streams) -> Result<ReadyStream> {
    streams.wait(Duration::from_secs(1))?;
    let (mut stream, _) = streams.accept()?.context("no connection")?;
    let _none = stream.read(&mut [0; 4]);
    Ok(stream)
}

/// A client sends a byte, which its peer reads.
fn hear(
    streams: &mut Streams,
    clients: &mut [TcpStream],
    peers: &mut [ReadyStream],
    place: usize,
) -> Result<()> {
    clients
        .get_mut(place)
        .context("no client")?
        .write_all(b"x")?;
    let peer = peers.get_mut(place).context("no peer")?;
    let mut byte = [0; 4];
    for _ in 0..100 {
        streams.wait(Duration::from_millis(10))?;
        if peer.read(&mut byte).is_ok_and(|len| len == 1) {
            return Ok(());
        }
    }
    anyhow::bail!("nothing was read")
}

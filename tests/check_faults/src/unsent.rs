//! Bytes that wait for a stream that takes few of them.

use crate::faulty::{Failure, FaultyWriter};
use ready_streams::Unsent;
use std::alloc::{AllocError, Global};
use std::io;
use std::io::{Error, ErrorKind, Write};
use std::test::Fail;

/// The most bytes that a slow stream takes in a call.
const STEP: usize = 20_000;

/// A stream that has room for some bytes. Each second call is interrupted.
#[derive(Drop)]
struct Slow {
    taken: Vec<u8>,
    room: usize,
    is_interrupted: bool,
}

impl Write for Slow {
    fn write(&mut self, buf: &[u8]) -> io::Result<usize> {
        self.is_interrupted = !self.is_interrupted;
        if self.is_interrupted {
            return Err(Error::from(ErrorKind::Interrupted));
        }
        let count = buf.len().min(self.room).min(STEP);
        if count == 0 {
            return Err(Error::from(ErrorKind::WouldBlock));
        }
        self.taken.extend_from_slice(&buf[..count])?;
        self.room = self.room.saturating_sub(count);
        Ok(count)
    }

    fn flush(&mut self) -> io::Result<()> {
        Ok(())
    }
}

fn stream_with(alloc: Global, room: usize) -> Slow {
    Slow {
        taken: Vec::new(alloc),
        room,
        is_interrupted: false,
    }
}

/// So many bytes, of which neighbours differ.
fn bytes_of(alloc: Global, count: usize) -> Result<Vec<u8>, AllocError> {
    let mut bytes = Vec::with_capacity(alloc, count)?;
    let mut next: u8 = 0;
    for _ in 0..count {
        bytes.push(next)?;
        next = if next == 250 { 0 } else { next + 1 };
    }
    Ok(bytes)
}

/// The kind of the error, if it is one.
fn kind_of(answer: io::Result<()>) -> Option<ErrorKind> {
    match answer {
        Ok(()) => None,
        Err(error) => Some(error.kind()),
    }
}

#[test]
fn what_waits_is_given_in_order_as_the_stream_has_room(rt: HostRuntime) -> Result<(), Fail> {
    let alloc = rt.alloc();
    let all = bytes_of(alloc, 900_000)?;
    let mut unsent = Unsent::new(alloc);
    let mut stream = stream_with(alloc, 0);
    let mut rest = all.as_slice();
    for turn in 0..400 {
        let (piece, later) = rest.split_at(rest.len().min(turn * 500));
        unsent.add(&mut stream, piece, usize::MAX, false)?;
        rest = later;
        stream.room = 7_000;
        unsent.unblock();
        unsent.give(&mut stream);
        let passed = stream.taken.len().saturating_add(unsent.len());
        assert_eq!(rt; passed.saturating_add(rest.len()), all.len(), "{turn}");
    }
    assert!(rt; rest.is_empty() && unsent.len() == 0);
    assert!(rt; stream.taken.as_slice() == all.as_slice());
    Ok(())
}

#[test]
fn bytes_for_which_there_is_no_room_are_refused(rt: HostRuntime) -> Result<(), Fail> {
    let alloc = rt.alloc();
    let bytes = bytes_of(alloc, 100_000)?;
    let mut unsent = Unsent::new(alloc);
    let mut stream = stream_with(alloc, 0);
    unsent.add(&mut stream, bytes.as_slice(), 150_000, false)?;
    let refused = unsent.add(&mut stream, bytes.as_slice(), 150_000, false);
    assert!(rt; kind_of(refused) == Some(ErrorKind::WriteZero));
    assert_eq!(rt; unsent.len(), 100_000);
    stream.room = usize::MAX;
    unsent.unblock();
    unsent.give(&mut stream);
    assert!(rt; stream.taken.as_slice() == bytes.as_slice() && unsent.len() == 0);
    Ok(())
}

#[test]
fn what_is_held_is_given_when_it_is_to_be(rt: HostRuntime) -> Result<(), Fail> {
    let alloc = rt.alloc();
    let bytes = bytes_of(alloc, 100_000)?;
    let mut unsent = Unsent::new(alloc);
    let mut stream = stream_with(alloc, usize::MAX);
    unsent.add(&mut stream, bytes.as_slice(), 300_000, true)?;
    unsent.add(&mut stream, bytes.as_slice(), 300_000, true)?;
    assert!(rt; stream.taken.is_empty() && unsent.len() == 200_000);
    unsent.give(&mut stream);
    assert!(rt; stream.taken.len() == 200_000 && unsent.len() == 0);
    Ok(())
}

#[test]
fn after_a_failed_write_nothing_waits(rt: HostRuntime) -> Result<(), Fail> {
    let alloc = rt.alloc();
    let mut unsent = Unsent::new(alloc);
    let mut stream = FaultyWriter::new(alloc, 3, 1, Failure::Full);
    unsent.add(&mut stream, b"waits", 10, false)?;
    unsent.give(&mut stream);
    assert!(rt; stream.written.as_slice() == b"wai".as_slice() && unsent.len() == 0);
    let refused = unsent.add(&mut stream, b"later", 10, false);
    assert!(rt; kind_of(refused) == Some(ErrorKind::BrokenPipe));
    Ok(())
}

//! Replays whose reader, writer, store or handler fails: the fault is named, and what was written
//! is a prefix of what the whole input is answered.

use crate::faulty::{Failure, FaultyReader, FaultyWriter};
use crate::handlers::{Fixed, MESSAGES, handlers};
use crate::scripts::{BOOTED, BOOTED_OUTPUT, hub_of, operators};
use failing_store::Failing;
use hub::Hub;
use hub_rows::Flush;
use replay::{ReplayFault, replay, replay_in_memory, replay_within};
use station_calls::Echo;
use std::alloc::Global;
use std::io::{ErrorKind, Read, Write};
use std::test::Fail;
use store_mem::MemStore;

/// How a replay of ACME and BETA ends: `ok`, or the name of its fault.
fn ended<R: Read, W: Write>(alloc: Global, reader: &mut R, writer: &mut W) -> Result<String, Fail> {
    let hosted = operators(alloc, &["ACME", "BETA"])?;
    let vendors: Vec<Echo> = Vec::new(alloc);
    let answer = replay_in_memory(alloc, hosted, vendors, reader, writer);
    named(alloc, answer)
}

fn named(alloc: Global, answer: Result<(), ReplayFault>) -> Result<String, Fail> {
    match answer {
        Ok(()) => Ok(String::from_str(alloc, "ok")?),
        Err(fault) => Ok(format!(in alloc; "{fault}")?),
    }
}

#[test]
fn a_reader_that_fails_is_named(rt: HostRuntime) -> Result<(), Fail> {
    let alloc = rt.alloc();
    for kind in [ErrorKind::Other, ErrorKind::Interrupted] {
        for before in 0..4 {
            let mut reader = FaultyReader {
                rest: BOOTED.as_bytes(),
                step: 100,
                before,
                kind,
            };
            let mut written = Vec::new(alloc);
            let name = ended(alloc, &mut reader, &mut written)?;
            assert_eq!(rt; name.as_str(), "Read");
            let written = str::from_utf8(written.as_slice())?;
            assert!(rt; BOOTED_OUTPUT.starts_with(written), "{before}");
            assert!(rt; before < 1 || !written.is_empty(), "{before}");
        }
    }
    Ok(())
}

#[test]
fn a_writer_that_fails_is_named(rt: HostRuntime) -> Result<(), Fail> {
    let alloc = rt.alloc();
    for failure in [Failure::Error, Failure::Full] {
        for before in 0..8 {
            let mut reader = BOOTED.as_bytes();
            let mut writer = FaultyWriter::new(alloc, 20, before, failure);
            let name = ended(alloc, &mut reader, &mut writer)?;
            assert_eq!(rt; name.as_str(), "Write");
            let written = str::from_utf8(writer.written.as_slice())?;
            assert_eq!(rt; written.len(), before * 20);
            assert!(rt; BOOTED_OUTPUT.starts_with(written), "{before}");
        }
    }
    Ok(())
}

#[test]
fn bytes_may_come_one_by_one(rt: HostRuntime) -> Result<(), Fail> {
    let alloc = rt.alloc();
    let mut reader = FaultyReader {
        rest: BOOTED.as_bytes(),
        step: 1,
        before: 10_000,
        kind: ErrorKind::Other,
    };
    let mut writer = FaultyWriter::new(alloc, 1, 10_000, Failure::Error);
    let name = ended(alloc, &mut reader, &mut writer)?;
    assert_eq!(rt; name.as_str(), "ok");
    assert_eq!(rt; str::from_utf8(writer.written.as_slice())?, BOOTED_OUTPUT);
    Ok(())
}

#[test]
fn faults_have_names(rt: HostRuntime) -> Result<(), Fail> {
    for (fault, name) in [
        (ReplayFault::NoMemory, "NoMemory"),
        (ReplayFault::Store, "Store"),
        (ReplayFault::LongListing, "LongListing"),
        (ReplayFault::BadOperators, "BadOperators"),
        (ReplayFault::Read, "Read"),
        (ReplayFault::Write, "Write"),
        (ReplayFault::TooLong, "TooLong"),
    ] {
        assert_eq!(rt; named(rt.alloc(), Err(fault))?.as_str(), name);
    }
    Ok(())
}

#[test]
fn an_input_past_its_bound_is_too_long(rt: HostRuntime) -> Result<(), Fail> {
    let alloc = rt.alloc();
    let mut hub = hub_of(alloc, MemStore::new(alloc), handlers(alloc, true)?)?;
    let mut written = Vec::new(alloc);
    let mut reader = BOOTED.as_bytes();
    let answer = replay_within(
        alloc,
        &mut hub,
        &mut reader,
        &mut written,
        Flush::AtOnce,
        10,
    );
    assert_eq!(rt; named(alloc, answer)?.as_str(), "TooLong");
    assert!(rt; written.is_empty());
    Ok(())
}

fn replayed(
    alloc: Global,
    hub: &mut Hub<Failing<MemStore>, Fixed>,
    script: &str,
) -> Result<(), ReplayFault> {
    let mut written = Vec::new(alloc);
    replay(
        alloc,
        hub,
        &mut script.as_bytes(),
        &mut written,
        Flush::AtOnce,
    )
}

#[test]
fn a_failing_store_and_want_of_memory_are_named(rt: HostRuntime) -> Result<(), Fail> {
    let alloc = rt.alloc();
    let store = Failing::new(MemStore::new(alloc), 4);
    let mut hub = hub_of(alloc, store, handlers(alloc, true)?)?;
    for (script, name) in [(BOOTED, "Store"), (BOOTED, "ok"), (MESSAGES, "NoMemory")] {
        let answer = replayed(alloc, &mut hub, script);
        assert_eq!(rt; named(alloc, answer)?.as_str(), name);
    }
    Ok(())
}

#[test]
fn answers_wait_for_the_flush_of_their_changes(rt: HostRuntime) -> Result<(), Fail> {
    let alloc = rt.alloc();
    let mut has_ended = false;
    for before in 0..100 {
        let store = Failing::new(MemStore::new(alloc), before);
        let mut hub = hub_of(alloc, store, handlers(alloc, true)?)?;
        let mut written = Vec::new(alloc);
        let mut reader = BOOTED.as_bytes();
        let answer = replay(alloc, &mut hub, &mut reader, &mut written, Flush::Later);
        has_ended = answer.is_ok();
        let wanted = if has_ended { BOOTED_OUTPUT } else { "" };
        assert_eq!(rt; str::from_utf8(written.as_slice())?, wanted, "{before}");
        if has_ended {
            break;
        }
    }
    assert!(rt; has_ended);
    Ok(())
}

#[test]
fn no_answer_waits_while_the_reader_is_waited_for(rt: HostRuntime) -> Result<(), Fail> {
    let alloc = rt.alloc();
    for before in 0..4 {
        let each = written_before(alloc, before, Flush::AtOnce)?;
        let later = written_before(alloc, before, Flush::Later)?;
        assert_eq!(rt; later, each, "{before}");
    }
    Ok(())
}

/// What is written before a fault of the reader, which comes after so many reads.
fn written_before(alloc: Global, before: usize, when: Flush) -> Result<Vec<u8>, Fail> {
    let mut hub = hub_of(alloc, MemStore::new(alloc), handlers(alloc, true)?)?;
    let mut written = Vec::new(alloc);
    let mut reader = FaultyReader {
        rest: BOOTED.as_bytes(),
        step: 100,
        before,
        kind: ErrorKind::Other,
    };
    let answer = replay(alloc, &mut hub, &mut reader, &mut written, when);
    match answer {
        Err(ReplayFault::Read) => Ok(written),
        other => Err(Fail::from(named(alloc, other)?)),
    }
}

//! Replays of scripts.

use anyhow::Result;
use hub::Hub;
use hub_rows::{Flush, Store};
use ocpp_types::Text;
use replay::{ReplayFault, replay};
use station_calls::Echo;
use std::alloc::Global;

/// What a replay of the lines over the store writes, and after it the fault, if there is one.
pub fn written<S: Store + Drop>(
    alloc: Global,
    store: S,
    operators: Vec<Text>,
    lines: &[u8],
) -> Result<String> {
    let mut output = Vec::new(alloc);
    let answer = replayed(alloc, store, operators, lines, &mut output)?;
    let mut text = String::from_utf8(output)?;
    if let Err(fault) = answer {
        let line = format!(in alloc; "fault {fault}\n")?;
        text.push_str(line.as_str())?;
    }
    Ok(text)
}

/// Replays the lines over the store. The messages of `org.example.echo` are answered.
fn replayed<S: Store + Drop>(
    alloc: Global,
    store: S,
    operators: Vec<Text>,
    lines: &[u8],
    output: &mut Vec<u8>,
) -> Result<Result<(), ReplayFault>> {
    let mut vendors = Vec::new(alloc);
    vendors.push(Echo { alloc })?;
    let mut reader = lines;
    match Hub::new(alloc, store, operators, vendors) {
        Ok(mut hub) => Ok(replay(alloc, &mut hub, &mut reader, output, Flush::AtOnce)),
        Err(_refused) => Ok(Err(ReplayFault::BadOperators)),
    }
}

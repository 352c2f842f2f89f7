//! Events over any store, and its records.

use anyhow::{Result, bail};
use hub::{Event, Hub, run_and_stop};
use hub_rows::Store;
use lines::{Line, print_out, read_line};
use ocpp_types::Text;
use sqlite::Alter;
use sqlite_trees::store::Reopen;
use station_calls::Echo;
use std::alloc::Global;
use store_sql::SqlStore;

/// The events of lines, of the operators ACME and BETA.
pub fn events(alloc: Global, lines: &[u8]) -> Result<Vec<Event>> {
    let hosted = operators(alloc)?;
    let mut events = Vec::new(alloc);
    for line in lines.split(|byte| *byte == b'\n') {
        match read_line(alloc, &hosted, line)? {
            Line::Event(event) => events.push(event)?,
            Line::Nothing => {}
            Line::Bad => bail!("a bad line"),
        }
    }
    Ok(events)
}

fn operators(alloc: Global) -> Result<Vec<Text>> {
    let mut operators = Vec::new(alloc);
    for name in ["ACME", "BETA"] {
        operators.push(Text::copy_of(alloc, name)?)?;
    }
    Ok(operators)
}

fn hub_over<S: Store + Drop>(alloc: Global, store: S) -> Result<Hub<S, Echo>> {
    match Hub::new(alloc, store, operators(alloc)?, Vec::new(alloc)) {
        Ok(hub) => Ok(hub),
        Err(_refused) => bail!("the operators can't be hosted"),
    }
}

/// Hands events to a hub over the store until the first fault: how many were taken, and the store.
pub fn take_all<S: Store + Drop>(alloc: Global, store: S, events: &[Event]) -> Result<(usize, S)> {
    let mut hub = hub_over(alloc, store)?;
    let (_, taken, _) = hub.run(events);
    Ok((taken, hub.into_store()))
}

/// The same over a database, which is opened again where the first fault is. `None` where it can't be.
pub fn take_and_stop<A: Alter + Reopen + Drop>(
    alloc: Global,
    store: SqlStore<A>,
    events: &[Event],
) -> Result<(usize, Option<SqlStore<A>>)> {
    let (taken, _, found) = run_and_stop(alloc, hub_over(alloc, store)?, events);
    Ok((taken, found.ok()))
}

/// What a hub over the store prints of its records, by events that list them.
pub fn records<S: Store + Drop>(alloc: Global, store: S, lists: &[Event]) -> Result<String> {
    let mut hub = hub_over(alloc, store)?;
    let (outs, taken, _) = hub.run(lists);
    if taken < lists.len() {
        bail!("a list ends in a fault");
    }
    let mut text = String::new(alloc);
    for out in &outs {
        text.push_str(print_out(alloc, out)?.as_str())?;
        text.push('\n')?;
    }
    Ok(text)
}

/// The same over a database.
pub fn records_in<A: Alter + Drop>(
    alloc: Global,
    store: SqlStore<A>,
    lists: &[Event],
) -> Result<String> {
    records(alloc, store, lists)
}

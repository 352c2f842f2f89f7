//! A script that is stopped, and the records after each of its events.

use crate::scripts::runs::{events, records, take_all};
use anyhow::Result;
use hub::Event;
use std::alloc::Global;
use std::fs;
use std::rt::Files;
use store_mem::MemStore;

/// The lines that list all records.
pub const LISTS: &str = "scripts/stopped/lists.txt";

/// The events of a script, those that list all records, and what these print after each number of events.
#[derive(Drop)]
pub struct Script {
    pub events: Vec<Event>,
    pub lists: Vec<Event>,
    after: Vec<String>,
}

impl Script {
    /// Reads the script of that name. What is printed is that of a store in memory.
    pub fn read<R: Files + AllocGlobal>(rt: &R, name: &str) -> Result<Script> {
        let alloc = rt.alloc();
        let path = format!(in alloc; "scripts/stopped/{name}.script")?;
        let events = events(alloc, fs::read(rt, path)?.as_slice())?;
        let lists = crate::scripts::runs::events(alloc, fs::read(rt, LISTS)?.as_slice())?;
        let after = all_records(alloc, &events, &lists)?;
        Ok(Script {
            events,
            lists,
            after,
        })
    }

    /// Whether that is what is printed after so many events.
    pub fn is_after(&self, taken: usize, records: &String) -> bool {
        self.after.get(taken).is_some_and(|after| after == records)
    }
}

fn all_records(alloc: Global, events: &[Event], lists: &[Event]) -> Result<Vec<String>> {
    let mut after = Vec::new(alloc);
    for taken in 0..=events.len() {
        let (_, store) = take_all(alloc, MemStore::new(alloc), &events[..taken])?;
        after.push(records(alloc, store, lists)?)?;
    }
    Ok(after)
}

//! A script that is stopped at calls on the log of a database, which is opened again in place: whether the records found
//! are those after the events taken, or with the one in progress. checks/stops.py stops the program over files.

use crate::scripts::runs::{records_in, take_and_stop};
use crate::scripts::stopped_script::Script;
use anyhow::{Context, Result, bail};
use sqlite::{Connection, FileStore, Files, Options};
use sqlite_disk::{Fuse, Memory};
use std::alloc::Global;
use store_sql::{SqlStore, prepare};

/// The script that is tried.
const SCRIPT: &str = "boot_and_heartbeat";

/// The stops: one call in so many, since what `rt try` builds is slow over a database.
const ONE_IN: u64 = 8;

/// More stops than there are.
const MAX_STOPS: u64 = 100;

/// A database over files that lose at a stop what wasn't synced.
type Database = SqlStore<FileStore<Fuse<Memory>>>;

/// What was found after the stops.
#[derive(Default, Drop)]
struct Tally {
    /// How many stops there were.
    stops: u64,
    /// After how many the records were neither those after the events taken nor those with the event in progress.
    wrong: u64,
}

impl Tally {
    fn count(&mut self, script: &Script, taken: usize, records: &String) {
        let is_good = script.is_after(taken, records) || script.is_after(taken + 1, records);
        self.stops = self.stops.saturating_add(1);
        if !is_good {
            self.wrong = self.wrong.saturating_add(1);
        }
    }
}

/// Stops the script, and prints how many stops there were. Whether none left other records.
pub fn try_stops(rt: &HostRuntime) -> Result<bool> {
    let script = Script::read(rt, SCRIPT)?;
    let Tally { stops, wrong } = stop_each(rt.alloc(), &script)?;
    println!(rt; "{SCRIPT}, opened in place: {stops} stops, {wrong} wrong")?;
    Ok(wrong == 0)
}

/// Stops the script once the tables stand, until a run ends before its stop.
fn stop_each(alloc: Global, script: &Script) -> Result<Tally> {
    let mut tally = Tally::default();
    for tried in 0..MAX_STOPS {
        let Some(store) = open(alloc, tried.saturating_mul(ONE_IN))? else {
            continue;
        };
        let (taken, found) = take_and_stop(alloc, store, &script.events)?;
        let Some(store) = found else {
            bail!("the database can't be opened again");
        };
        tally.count(script, taken, &records_in(alloc, store, &script.lists)?);
        if taken == script.events.len() {
            return Ok(tally);
        }
    }
    bail!("more than {MAX_STOPS} stops")
}

/// A new database of whose log the calls after so many fail. `None` where the tables don't stand by then.
fn open(alloc: Global, calls: u64) -> Result<Option<Database>> {
    let files = Files {
        log: Fuse::new(Memory::new(alloc), calls),
        db: Fuse::new(Memory::new(alloc), u64::MAX),
    };
    let Ok(mut conn) = Connection::open_files(alloc, files, Options::new(9)) else {
        return Ok(None);
    };
    if prepare(&mut conn, alloc).is_err() {
        return Ok(None);
    }
    let store = SqlStore::adopt(alloc, conn).context("tables that stand")?;
    Ok(Some(store))
}

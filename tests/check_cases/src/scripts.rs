//! Worked scripts over caches, over stores that fail, and over a database that is stopped: what is written and kept, beside
//! what is to be.
//!
//! A folder of `data/scripts/` has the scripts of a subject: the lines of each, `NAME.script`, and what is to be written,
//! `NAME.expected`. The operators are those of `NAME.operators`, or else ACME and BETA. A fault is the last line,
//! `fault NAME`. Each script is replayed here over caches of few answers. checks/files.py replays each by the built program,
//! in memory and over a file.
//!
//! The other files there are of checks/files.py alone: `NAME.later` has the lines of a script over the file that
//! `NAME.script` has left, and `NAME.between` statements of SQL that are run over the file before it. `databases` has
//! databases, `NAME.db`, which are opened, and `opened.txt` what is said of each. `NAME.opened` has the lines of a script
//! over a copy of one that an earlier version of the program made, and `NAME.again` those of a script after it.
//!
//! Some of the scripts are tried over stores of which each call fails in turn. An event that ends in a fault is handed once
//! more.
//!
//! `stopped` has the scripts that are stopped at calls on files, and the lines that list all records, `lists.txt`. One is
//! stopped here, and all by checks/stops.py.

mod caches;
mod checked;
mod difference;
mod failures;
mod handed_again;
mod replayed;
mod runs;
mod script;
mod stopped_script;
mod stops;

use crate::tally::Tally;
use caches::try_caches;
use checked::check_all;
use failures::{Kind, Met, try_failures};
use stops::try_stops;

/// Checks the scripts over caches of several capacities. Whether all passed.
fn check_caches(rt: &HostRuntime) -> anyhow::Result<bool> {
    let mut all = true;
    for capacity in [1, 2] {
        let Tally { passed, failed } = check_all(rt, capacity)?;
        println!(rt; "in a cache of {capacity}: {passed} scripts passed, {failed} failed")?;
        all &= failed == 0;
    }
    Ok(all)
}

/// Prints how many events met a call of a store that failed. Whether all scripts were answered as without one.
fn check_failures(rt: &HostRuntime, store: &str, kind: Kind) -> anyhow::Result<bool> {
    let Met { events, otherwise } = try_failures(rt, kind)?;
    println!(rt;
        "{store}, a call fails: {events} events handed again, {otherwise} scripts answered otherwise"
    )?;
    Ok(otherwise == 0)
}

/// Whether each script is answered as it is to be, and no stop left other records.
pub fn check(rt: &HostRuntime) -> anyhow::Result<bool> {
    let replayed = check_caches(rt)?;
    try_caches(rt)?;
    let memory = check_failures(rt, "in memory", Kind::Memory)?;
    let small = check_failures(rt, "in a cache of 1", Kind::Cache(1))?;
    let stopped = try_stops(rt)?;
    Ok(replayed && memory && small && stopped)
}

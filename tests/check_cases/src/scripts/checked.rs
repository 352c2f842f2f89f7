//! Scripts over caches, compared with what they are to write.

use crate::scripts::difference::first_difference;
use crate::scripts::replayed::written;
use crate::scripts::script::{lines_of, names, operators_of, wanted_of};
use crate::tally::Tally;
use anyhow::{Context, Result};
use cached::Cached;
use std::rt::Files;
use store_mem::MemStore;

/// Checks the scripts, each over a new cache of so many answers, before a store in memory.
pub fn check_all<R>(rt: &R, capacity: usize) -> Result<Tally>
where
    R: Files + AllocGlobal + Print + Clone + Drop,
{
    let mut tally = Tally::default();
    for name in &names(rt, ".script")? {
        let passes = passes(rt, capacity, name.as_str()).context(format_args!("script {name}"))?;
        tally.count(passes);
    }
    Ok(tally)
}

/// Whether a replay of the script of that name writes what it is to write. If not, prints the first line that differs.
fn passes<R>(rt: &R, capacity: usize, name: &str) -> Result<bool>
where
    R: Files + AllocGlobal + Print,
{
    let wanted = wanted_of(rt, name)?;
    let got = got_of(rt, capacity, name)?;
    let Some(difference) = first_difference(wanted.as_str(), got.as_str()) else {
        return Ok(true);
    };
    println!(rt; "{name}, {difference}")?;
    Ok(false)
}

/// What a replay of the script of that name writes.
fn got_of<R>(rt: &R, capacity: usize, name: &str) -> Result<String>
where
    R: Files + AllocGlobal,
{
    let alloc = rt.alloc();
    let store = Cached::new(alloc, MemStore::new(alloc), capacity)?;
    let lines = lines_of(rt, name)?;
    written(alloc, store, operators_of(rt, name)?, lines.as_slice())
}

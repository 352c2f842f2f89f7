//! Tables of cases: what a function gives for the texts of each line, beside what it is to give.
//!
//! `data/tables/TABLE.txt` has a case on each line: the texts that the function of that table is given,
//! and last what it is to give, separated by tabs. A text that begins with `"` is a JSON string and
//! stands for what that spells. An empty line, and one that begins with `#`, is no case; comments
//! say where the values come from.

mod cases;
mod commands;
mod enumerations;
mod frames;
mod journal;
mod paths;
mod requests;
mod tables;
mod tolerant;
mod values;

use crate::tally::Tally;
use cases::{check_table, tables};

/// Whether every case gives what it is to give.
pub fn check(rt: &HostRuntime) -> anyhow::Result<bool> {
    let mut tally = Tally::default();
    for table in &tables(rt)? {
        check_table(rt, table.as_str(), &mut tally)?;
    }
    let Tally { passed, failed } = tally;
    println!(rt; "tables: {passed} cases passed, {failed} failed")?;
    Ok(failed == 0)
}

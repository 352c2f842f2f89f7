//! Connections over loopback: what clients send, and what each of them is to read.
//!
//! `data/connections/connections.txt` has the scripts, and says how to read them. Both ends run in this thread, so
//! that each line of a script happens after the one above it.

mod client;
mod head;
mod script;
mod server;
mod station;

use crate::tally::Tally;
use script::check_all;
use std::fs;

/// Whether each client reads what it is to read.
pub fn check(rt: &HostRuntime) -> anyhow::Result<bool> {
    let text = fs::read_to_string(rt, "connections/connections.txt")?;
    let Tally { passed, failed } = check_all(rt, text.as_str())?;
    println!(rt; "connections: {passed} lines passed, {failed} failed")?;
    Ok(failed == 0)
}

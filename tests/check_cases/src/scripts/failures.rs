//! Scripts over stores of which one call fails.

use crate::scripts::handed_again::{Answers, hand_all};
use crate::scripts::script::{lines_of, operators_of, wanted_of};
use anyhow::{Context, Result};
use cached::Cached;
use failing_store::Failing;
use std::alloc::Global;
use std::rt::Files;
use store_mem::MemStore;

/// The scripts that are tried.
const SCRIPTS: &[&str] = &[
    "stations/boot_and_heartbeat",
    "stations/stations_are_dropped",
    "transactions/start_repeated",
    "uses/use_of_a_closed_transaction",
    "history/uses_outlive_what_is_forgotten",
    "commands/calls_of_a_station",
    "reservations/reservations",
    "local_lists/local_list_of_a_station",
    "reservations/reservations_follow_the_answer",
    "reports/reports_of_a_station",
    "operators/day_of_two_operators",
];

/// How many calls of a script fail at most, one at a time.
const MAX_CALLS: u64 = 100_000;

/// What a call that fails is a call of.
#[derive(Clone, Copy, Drop)]
pub enum Kind {
    /// A store in memory.
    Memory,
    /// A cache of so many answers, before a store in memory.
    Cache(usize),
}

/// How many events met a call that failed, and how many of those scripts were answered otherwise than without one.
#[derive(Drop)]
pub struct Met {
    pub events: u64,
    pub otherwise: u64,
}

/// Lets each call that the scripts make of a store fail in turn. The event that met it is handed once more.
pub fn try_failures<R: Files + AllocGlobal>(rt: &R, kind: Kind) -> Result<Met> {
    let mut met = Met {
        events: 0,
        otherwise: 0,
    };
    for name in SCRIPTS {
        try_script(rt, kind, name, &mut met).context(format_args!("script {name}"))?;
    }
    Ok(met)
}

fn try_script<R: Files + AllocGlobal>(rt: &R, kind: Kind, name: &str, met: &mut Met) -> Result<()> {
    let wanted = wanted_of(rt, name)?;
    for before in 0..MAX_CALLS {
        let answers = answered(rt, kind, name, before)?;
        if answers.text != wanted || answers.faults > 1 {
            met.otherwise = met.otherwise.saturating_add(1);
        }
        if answers.faults == 0 {
            break;
        }
        met.events = met.events.saturating_add(1);
    }
    Ok(())
}

/// What the script of that name is answered, where the call after so many fails.
fn answered<R: Files + AllocGlobal>(
    rt: &R,
    kind: Kind,
    name: &str,
    before: u64,
) -> Result<Answers> {
    let alloc = rt.alloc();
    let operators = operators_of(rt, name)?;
    let lines = lines_of(rt, name)?;
    let store = Failing::new(MemStore::new(alloc), before);
    match kind {
        Kind::Memory => hand_all(alloc, store, operators, lines.as_slice()),
        Kind::Cache(capacity) => {
            let store = Cached::new(alloc, store, capacity)?;
            hand_all(alloc, store, operators, lines.as_slice())
        }
    }
}

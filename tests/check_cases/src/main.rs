//! Cases in files: the functions of texts and numbers, connections over loopback, and worked scripts of events.
#![tactic(auto)]

mod connections;
mod scripts;
mod silence;
mod tables;
mod tally;

use std::process::ExitCode;

/// Statuses: 0 where all is as it is to be, 1 otherwise.
fn main(rt: HostRuntime) -> anyhow::Result<ExitCode> {
    let tables = tables::check(&rt)?;
    let connections = connections::check(&rt)?;
    let scripts = scripts::check(&rt)?;
    let silence = silence::check(&rt)?;
    let all = tables && connections && scripts && silence;
    Ok(ExitCode::from(if all { 0 } else { 1 }))
}

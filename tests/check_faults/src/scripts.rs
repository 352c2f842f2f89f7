//! Scripts as events, hubs for them, and outputs as lines. The helpers have no contract, so a test
//! that uses them is cheap to prove.

use hub::{BadOperators, Event, Fault, Hub, Out};
use hub_rows::Store;
use lines::{Line, print_out, read_line};
use ocpp_types::{Mem, Text};
use station_calls::VendorHandler;
use std::alloc::Global;
use std::test::Fail;

/// ACME's station CP01 is added, connects, boots and sends a heartbeat.
pub const BOOTED: &str = r#"1704067200 ACME station add CP01 Accepted 300
1704067200 ACME connect CP01
1704067200 ACME frame CP01 [2,"1","BootNotification",{"chargePointVendor":"V","chargePointModel":"M"}]
1704067200 ACME frame CP01 [2,"2","Heartbeat",{}]
"#;

/// What is written for it.
pub const BOOTED_OUTPUT: &str = r#"ACME ok
ACME CP01 send [3,"1",{"currentTime":"2024-01-01T00:00:00Z","interval":300,"status":"Accepted"}]
ACME CP01 send [3,"2",{"currentTime":"2024-01-01T00:00:00Z"}]
"#;

pub fn operators(alloc: Global, names: &[&str]) -> Mem<Vec<Text>> {
    let mut operators = Vec::new(alloc);
    for name in names {
        operators.push(Text::copy_of(alloc, name)?)?;
    }
    Ok(operators)
}

/// The events of the lines of a script, those of an operator ZETA among them.
pub fn events(alloc: Global, script: &str) -> Mem<Vec<Event>> {
    let hosted = operators(alloc, &["ACME", "BETA", "ZETA"])?;
    let mut events = Vec::new(alloc);
    for line in script.lines() {
        if let Line::Event(event) = read_line(alloc, &hosted, line.as_bytes())? {
            events.push(event)?;
        }
    }
    Ok(events)
}

/// A hub of ACME and BETA.
pub fn hub_of<S: Store + Drop, V: VendorHandler>(
    alloc: Global,
    store: S,
    vendors: Vec<V>,
) -> Result<Hub<S, V>, Fail> {
    let hosted = operators(alloc, &["ACME", "BETA"])?;
    Ok(hosting(alloc, store, hosted, vendors)?)
}

/// A hub of those operators.
pub fn hosting<S: Store + Drop, V: VendorHandler>(
    alloc: Global,
    store: S,
    hosted: Vec<Text>,
    vendors: Vec<V>,
) -> Result<Hub<S, V>, BadOperators> {
    Hub::new(alloc, store, hosted, vendors)
}

/// What a run of events came to.
#[derive(Drop)]
pub struct Ran {
    /// The lines of the outputs.
    pub text: String,
    pub taken: usize,
    pub fault: Option<Fault>,
}

/// Runs the events.
pub fn run<S: Store + Drop, V: VendorHandler>(
    alloc: Global,
    hub: &mut Hub<S, V>,
    events: &[Event],
) -> Mem<Ran> {
    let (outs, taken, fault) = hub.run(events);
    let text = lines_of(alloc, outs.as_slice())?;
    Ok(Ran { text, taken, fault })
}

/// The lines of outputs.
pub fn lines_of(alloc: Global, outs: &[Out]) -> Mem<String> {
    let mut text = String::new(alloc);
    for out in outs {
        let line = print_out(alloc, out)?;
        text.push_str(line.as_str())?;
        text.push('\n')?;
    }
    Ok(text)
}

//! A run of events over a store that fails, and one of an operator that isn't hosted.

use crate::scripts::{BOOTED, events, hub_of, run};
use failing_store::Failing;
use hub::Fault;
use station_calls::Echo;
use std::alloc::Global;
use std::test::Fail;
use store_mem::MemStore;

/// Events of ACME, of ZETA, which isn't hosted, and of ACME.
const FOREIGN: &str =
    "1704067200 ACME list tags\n1704067200 ZETA list tags\n1704067200 ACME list tags\n";

fn no_vendors(alloc: Global) -> Vec<Echo> {
    Vec::new(alloc)
}

#[test]
fn a_run_stops_at_a_fault(rt: HostRuntime) -> Result<(), Fail> {
    let alloc = rt.alloc();
    let booted = events(alloc, BOOTED)?;
    let store = Failing::new(MemStore::new(alloc), 1);
    let mut hub = hub_of(alloc, store, no_vendors(alloc))?;
    let met = run(alloc, &mut hub, booted.as_slice())?;
    assert!(rt; met.text.is_empty() && met.taken == 0);
    assert!(rt; met.fault == Some(Fault::Store));
    let foreign = events(alloc, FOREIGN)?;
    let met = run(alloc, &mut hub, foreign.as_slice())?;
    assert_eq!(rt; met.text.as_str(), "ACME ok\n");
    assert!(rt; met.taken == 1 && met.fault == Some(Fault::NoSuchOperator));
    Ok(())
}

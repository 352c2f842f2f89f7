//! Two systems, in which ACME has the same and is shown the same, or isn't.

use crate::scripts::{BOOTED, BOOTED_OUTPUT, events, hosting, hub_of, lines_of, operators, run};
use failing_store::Failing;
use hub::Fault;
use hub::worlds::{isolated, same_lists};
use hub_rows::{Change, Edit, Flush, Store, StoreFault, Tag, TagEdit};
use ocpp_types::{Mem, TagKey, Text};
use station_calls::Echo;
use std::alloc::Global;
use std::test::Fail;
use store_mem::MemStore;

/// ACME has a booted station and a tag.
const READY: &str = "1704067200 ACME tag put K1 - 0 -\n";

/// ACME's station starts a transaction and sends the start again. ACME lists its transactions and connections. The station
/// is sent commands. One answer bears the id of no call, one comes after its call has timed out.
const SCRIPT: &str =
    r#"1704067200 ACME frame CP01 [2,"7","StartTransaction",{"connectorId":1,"idTag":"K1","meterStart":100,"timestamp":"2024-01-01T00:00:00Z"}]
1704067200 ACME frame CP01 [2,"8","StartTransaction",{"connectorId":1,"idTag":"K1","meterStart":100,"timestamp":"2024-01-01T00:00:00Z"}]
1704067200 ACME list transactions CP01
1704067200 ACME list transactions CP01 1
1704067200 ACME list transactions CP01 2
1704067200 ACME list open
1704067200 ACME list connections
1704067200 ACME call CP01 Reset {"type":"Soft"}
1704067200 ACME call CP01 ClearCache {}
1704067200 ACME frame CP01 [3,"7",{"status":"Accepted"}]
1704067200 ACME frame CP01 [3,"1",{"status":"Accepted"}]
1704067229 * tick
1704067230 * tick
1704067230 ACME frame CP01 [3,"2",{"status":"Accepted"}]
1704067200 ACME call CP01 ClearCache {}
1704067200 ACME call CP01 ClearCache {}
1704067200 ACME call CP01 ClearCache {}
1704067200 ACME call CP01 ClearCache {}
1704067200 ACME call CP01 ClearCache {}
1704067200 ACME call CP01 ClearCache {}
1704067200 ACME call CP01 ClearCache {}
1704067200 ACME call CP01 ClearCache {}
1704067200 ACME call CP01 ClearCache {}
1704067200 ACME call CP01 ClearCache {}
1704067200 ACME call CP01 ClearCache {}
1704067200 ACME call CP01 ClearCache {}
1704067200 ACME call CP01 ClearCache {}
1704067200 ACME call CP01 ClearCache {}
1704067200 ACME call CP01 ClearCache {}
1704067200 ACME call CP01 ClearCache {}
1704067200 ACME call CP01 ClearCache {}
1704067200 ACME list connections
"#;

const OUTPUT: &str = r#"ACME CP01 send [3,"7",{"idTagInfo":{"status":"Accepted"},"transactionId":1}]
ACME CP01 send [3,"8",{"idTagInfo":{"status":"Accepted"},"transactionId":1}]
ACME row transaction CP01 1 1 "K1" Accepted 100 1704067200000 - - - - -
ACME ok
ACME row transaction CP01 1 1 "K1" Accepted 100 1704067200000 - - - - -
ACME ok
ACME ok
ACME row transaction CP01 1 1 "K1" Accepted 100 1704067200000 - - - - -
ACME ok
ACME row connection CP01 0
ACME ok
ACME ok 1
ACME CP01 send [2,"1","Reset",{"type":"Soft"}]
ACME ok 2
ACME CP01 done 1 Answer {"status":"Accepted"}
ACME CP01 send [2,"2","ClearCache",{}]
ACME CP01 done 2 Timeout
ACME ok 3
ACME CP01 send [2,"3","ClearCache",{}]
ACME ok 4
ACME ok 5
ACME ok 6
ACME ok 7
ACME ok 8
ACME ok 9
ACME ok 10
ACME ok 11
ACME ok 12
ACME ok 13
ACME ok 14
ACME ok 15
ACME ok 16
ACME ok 17
ACME ok 18
ACME refused 8 QueueFull
ACME row connection CP01 16
ACME ok
"#;

/// BETA has a station and a tag ZZ, which it doesn't grant.
const OTHERS: &str = r#"1704067200 BETA station add B1 Accepted 300
1704067200 BETA connect B1
1704067200 BETA frame B1 [2,"1","BootNotification",{"chargePointVendor":"V","chargePointModel":"M"}]
1704067200 BETA tag put ZZ - 0 -
"#;

/// A start of BETA's, before and after its meter.
const START: &str =
    r#"1704067200 BETA frame B1 [2,"s","StartTransaction",{"connectorId":1,"idTag":"ZZ","timestamp":"2024-01-01T00:00:00Z","meterStart":"#;

const STARTED: &str = "}]\n";

const HEARTBEAT: &str = "1704067200 BETA frame B1 [2,\"h\",\"Heartbeat\",{}]\n";

/// The events by which BETA has 57 transactions.
fn before(alloc: Global) -> Mem<String> {
    let mut text = String::from_str(alloc, OTHERS)?;
    for meter in 0..57 {
        let start = format!(in alloc; "{meter}")?;
        text.push_str(START)?;
        text.push_str(start.as_str())?;
        text.push_str(STARTED)?;
    }
    Ok(text)
}

/// A script with a heartbeat of BETA's after each line but ticks.
fn beside_another(alloc: Global, script: &str) -> Mem<String> {
    let mut text = String::new(alloc);
    for line in script.lines() {
        text.push_str(line)?;
        text.push('\n')?;
        if !line.ends_with("* tick") {
            text.push_str(HEARTBEAT)?;
        }
    }
    Ok(text)
}

/// What ACME is told by two systems, over stores of two types.
#[derive(Drop)]
struct Told {
    first: String,
    second: String,
}

/// Two systems that ran the first scripts, and are then compared over the second ones.
fn run_both(alloc: Global, had: (&str, &str), first: &str, second: &str) -> Result<Told, Fail> {
    let no_vendors: Vec<Echo> = Vec::new(alloc);
    let mut one = hub_of(alloc, MemStore::new(alloc), no_vendors)?;
    let no_vendors: Vec<Echo> = Vec::new(alloc);
    let store = Failing::new(MemStore::new(alloc), u64::MAX);
    let mut other = hub_of(alloc, store, no_vendors)?;
    let _ran = run(alloc, &mut one, events(alloc, had.0)?.as_slice())?;
    let _ran = run(alloc, &mut other, events(alloc, had.1)?.as_slice())?;
    let first = events(alloc, first)?;
    let second = events(alloc, second)?;
    let (of_one, of_other) = isolated(
        &mut one,
        first.as_slice(),
        &mut other,
        second.as_slice(),
        "ACME",
    )?;
    Ok(Told {
        first: lines_of(alloc, of_one.as_slice())?,
        second: lines_of(alloc, of_other.as_slice())?,
    })
}

/// In the first system ACME has its station and K1. In the second BETA has 57 transactions, and a tag ZZ,
/// beside them.
fn told_beside(alloc: Global, first: &str, second: &str) -> Result<Told, Fail> {
    let had = format!(in alloc; "{BOOTED}{READY}")?;
    let others = before(alloc)?;
    let had_beside = format!(in alloc; "{others}{BOOTED}{READY}")?;
    run_both(alloc, (had.as_str(), had_beside.as_str()), first, second)
}

#[test]
fn another_operator_changes_nothing(rt: HostRuntime) -> Result<(), Fail> {
    let alloc = rt.alloc();
    let beside = beside_another(alloc, SCRIPT)?;
    let told = told_beside(alloc, SCRIPT, beside.as_str())?;
    assert_eq!(rt; told.first.as_str(), OUTPUT);
    assert_eq!(rt; told.second.as_str(), OUTPUT);
    Ok(())
}

/// ACME's command for a tag ZZ, which BETA has in the second system and nobody in the first.
const FOR_ZZ: &str = "1704067200 ACME call CP01 RemoteStartTransaction {\"idTag\":\"ZZ\"}\n";

#[test]
fn a_tag_of_another_operator_is_as_one_that_nobody_has(rt: HostRuntime) -> Result<(), Fail> {
    let alloc = rt.alloc();
    let told = told_beside(alloc, FOR_ZZ, FOR_ZZ)?;
    assert_eq!(rt; told.first.as_str(), "ACME refused 10 TagRefused Invalid\n");
    assert_eq!(rt;
        told.second.as_str(),
        "ACME refused 10 TagRefused Invalid\n"
    );
    Ok(())
}

/// BETA grants K2 to ACME; in the first system it takes that back.
const GRANTED: &str = r#"1704067200 BETA tag put K2 - 0 -
1704067200 BETA grant K2 ACME -
"#;

const REVOKED: &str = "1704067200 BETA revoke K2 ACME\n";

const ASKED: &str = "1704067200 ACME frame CP01 [2,\"3\",\"Authorize\",{\"idTag\":\"K2\"}]\n";

#[test]
fn a_grant_taken_back_is_seen(rt: HostRuntime) -> Result<(), Fail> {
    let alloc = rt.alloc();
    let first = format!(in alloc; "{GRANTED}{REVOKED}{ASKED}")?;
    let second = format!(in alloc; "{GRANTED}{ASKED}")?;
    let told = run_both(alloc, (BOOTED, BOOTED), first.as_str(), second.as_str())?;
    assert!(rt;
        told.first
            .as_str()
            .ends_with("{\"idTagInfo\":{\"status\":\"Invalid\"}}]\n")
    );
    assert!(rt;
        told.second
            .as_str()
            .ends_with("{\"idTagInfo\":{\"status\":\"Accepted\"}}]\n")
    );
    Ok(())
}

/// ACME grants K1 to BETA, and lists the uses after a stop of BETA's.
const GRANTED_OUT: &str = r#"1704067200 ACME tag put K1 - 0 -
1704067200 ACME grant K1 BETA -
"#;

const USES: &str = "1704070800 ACME list uses\n";

/// A transaction of BETA's with K1, of 1,500 Wh.
const USED: &str = r#"1704067200 BETA station add B1 Accepted 300
1704067200 BETA connect B1
1704067200 BETA frame B1 [2,"1","BootNotification",{"chargePointVendor":"V","chargePointModel":"M"}]
1704067200 BETA frame B1 [2,"2","StartTransaction",{"connectorId":1,"idTag":"K1","meterStart":100,"timestamp":"2024-01-01T00:00:00Z"}]
1704070800 BETA frame B1 [2,"3","StopTransaction",{"meterStop":1600,"timestamp":"2024-01-01T00:45:00Z","transactionId":1}]
"#;

/// One that is stopped at the same moment, with as many Wh: its station, its number, its connector, its start, its meters,
/// its times, its reason and its readings are others, and the station has a transaction before it.
const USED_OTHERWISE: &str = r#"1704067200 BETA station add B9 Accepted 60
1704067200 BETA connect B9
1704067200 BETA frame B9 [2,"1","BootNotification",{"chargePointVendor":"W","chargePointModel":"N"}]
1704067200 BETA frame B9 [2,"2","StartTransaction",{"connectorId":1,"idTag":"NOBODYS","meterStart":7,"timestamp":"2024-01-01T00:00:00Z"}]
1704067300 BETA frame B9 [2,"3","StartTransaction",{"connectorId":2,"idTag":"k1","meterStart":5000,"timestamp":"2024-01-01T00:01:00Z"}]
1704067400 BETA frame B9 [2,"4","MeterValues",{"connectorId":2,"transactionId":2,"meterValue":[{"timestamp":"2024-01-01T00:03:00Z","sampledValue":[{"value":"5100"}]}]}]
1704070800 BETA frame B9 [2,"5","StopTransaction",{"meterStop":6500,"timestamp":"2024-01-01T00:50:00Z","transactionId":2,"reason":"EVDisconnected"}]
"#;

const USES_OUTPUT: &str = r#"ACME ok
ACME ok
ACME row use 1 BETA "k1" 1704070800 1500
ACME ok
"#;

#[test]
fn a_use_shows_no_more_than_its_host_tag_moment_and_energy(rt: HostRuntime) -> Result<(), Fail> {
    let alloc = rt.alloc();
    let first = format!(in alloc; "{GRANTED_OUT}{USED}{USES}")?;
    let second = format!(in alloc; "{GRANTED_OUT}{USED_OTHERWISE}{USES}")?;
    let told = run_both(alloc, ("", ""), first.as_str(), second.as_str())?;
    assert_eq!(rt; told.first.as_str(), USES_OUTPUT);
    assert_eq!(rt; told.second.as_str(), USES_OUTPUT);
    same_lists();
    Ok(())
}

#[test]
fn stations_and_operators_are_known(rt: HostRuntime) -> Result<(), Fail> {
    let alloc = rt.alloc();
    let no_vendors: Vec<Echo> = Vec::new(alloc);
    let mut hub = hub_of(alloc, MemStore::new(alloc), no_vendors)?;
    let booted = events(alloc, BOOTED)?;
    let met = run(alloc, &mut hub, booted.as_slice())?;
    assert!(rt; met.taken == 4 && met.fault == None);
    assert!(rt; hub.knows("ACME", "CP01") == Ok(true));
    assert!(rt; hub.knows("BETA", "CP01") == Ok(false));
    assert!(rt; hub.knows("ZETA", "CP01") == Ok(false));
    assert!(rt; hub.hosts("ACME") && !hub.hosts("ACM") && !hub.hosts("ZETA"));
    Ok(())
}

/// An event of ZETA, which isn't hosted.
const FOREIGN: &str = "1704067200 ZETA list tags\n";

/// The fault of two systems, the second of which meets an event of ZETA.
fn fault_of(alloc: Global) -> Result<Option<Fault>, Fail> {
    let no_vendors: Vec<Echo> = Vec::new(alloc);
    let mut one = hub_of(alloc, MemStore::new(alloc), no_vendors)?;
    let no_vendors: Vec<Echo> = Vec::new(alloc);
    let mut other = hub_of(alloc, MemStore::new(alloc), no_vendors)?;
    let booted = events(alloc, BOOTED)?;
    let foreign = events(alloc, FOREIGN)?;
    match isolated(
        &mut one,
        booted.as_slice(),
        &mut other,
        foreign.as_slice(),
        "ACME",
    ) {
        Ok(_) => Ok(None),
        Err(fault) => Ok(Some(fault)),
    }
}

#[test]
fn an_operator_that_is_not_hosted_is_a_fault(rt: HostRuntime) -> Result<(), Fail> {
    let alloc = rt.alloc();
    assert!(rt; fault_of(alloc)? == Some(Fault::NoSuchOperator));
    let no_vendors: Vec<Echo> = Vec::new(alloc);
    let mut hub = hub_of(alloc, MemStore::new(alloc), no_vendors)?;
    let script = format!(in alloc; "{BOOTED}{FOREIGN}")?;
    let ran = run(alloc, &mut hub, events(alloc, script.as_str())?.as_slice())?;
    assert!(rt; ran.taken == 4 && ran.fault == Some(Fault::NoSuchOperator));
    assert_eq!(rt; ran.text.as_str(), BOOTED_OUTPUT);
    Ok(())
}

/// BETA's tag K2.
fn put_tag<S: Store>(alloc: Global, store: &mut S) -> Result<(), StoreFault> {
    let key = TagKey::of(alloc, "K2")?;
    let tag = Tag {
        text: Text::copy_of(alloc, "K2")?,
        parent: None,
        blocked: false,
        expiry: None,
    };
    let op = Text::copy_of(alloc, "BETA")?;
    let edit = Edit::Tags(TagEdit::TagPut { key, tag });
    let change = Change {
        op: &op,
        edit: &edit,
    };
    store.apply(&change, Flush::AtOnce)
}

/// A grant of BETA's tag K2 to another.
fn grant<S: Store>(alloc: Global, store: &mut S, to: &str) -> Result<(), StoreFault> {
    let edit = Edit::Tags(TagEdit::GrantPut {
        key: TagKey::of(alloc, "K2")?,
        to: Text::copy_of(alloc, to)?,
        until: None,
    });
    let op = Text::copy_of(alloc, "BETA")?;
    let change = Change {
        op: &op,
        edit: &edit,
    };
    store.apply(&change, Flush::AtOnce)
}

#[test]
fn a_grant_of_an_owner_that_is_not_hosted_counts(rt: HostRuntime) -> Result<(), Fail> {
    let alloc = rt.alloc();
    let mut store = MemStore::new(alloc);
    put_tag(alloc, &mut store)?;
    grant(alloc, &mut store, "ACME")?;
    let no_vendors: Vec<Echo> = Vec::new(alloc);
    let mut hub = hosting(alloc, store, operators(alloc, &["ACME"])?, no_vendors)?;
    let script = format!(in alloc; "{BOOTED}{ASKED}")?;
    let ran = run(alloc, &mut hub, events(alloc, script.as_str())?.as_slice())?;
    assert!(rt;
        ran.text
            .as_str()
            .ends_with("{\"idTagInfo\":{\"status\":\"Accepted\"}}]\n")
    );
    Ok(())
}

//! Stations whose numbers of transactions, readings and calls come to their end.

use crate::scripts::{events, hub_of, run};
use hub_rows::{
    Change, Edit, Flush, MeterValue, Start, StartKey, StationEdit, Store, StoreFault,
    TransactionEdit,
};
use ocpp_types::{
    AuthorizationStatus, Listed, Location, Measurand, Mem, Moment, Policy, ReadingContext, Refusal,
    SampledValue, TagKey, Text, ValueFormat,
};
use pending_calls::{NewCall, Slots};
use station_calls::Echo;
use std::alloc::Global;
use std::test::Fail;
use store_mem::MemStore;

/// The last number that a transaction, a reading or a call can have.
const LAST_NUMBER: u32 = 2147483647;

/// Makes a change of ACME's records.
fn apply<S: Store>(alloc: Global, store: &mut S, edit: &Edit) -> Result<(), StoreFault> {
    let op = Text::copy_of(alloc, "ACME")?;
    store.apply(&Change { op: &op, edit }, Flush::AtOnce)
}

/// Adds CP01.
fn add<S: Store>(alloc: Global, store: &mut S) -> Result<(), StoreFault> {
    let edit = Edit::Stations(StationEdit::StationAdded {
        station: Text::copy_of(alloc, "CP01")?,
        policy: Policy::Accepted,
        interval: 300,
    });
    apply(alloc, store, &edit)
}

/// A start of K1 on connector 1.
fn start_of(alloc: Global, moment: Moment) -> Mem<Start> {
    let id = StartKey {
        connector: 1,
        key: TagKey::of(alloc, "K1")?,
        meter_start: 100,
        at: 1704067200000,
    };
    Ok(Start {
        id,
        tag: Text::copy_of(alloc, "K1")?,
        reservation: None,
        status: AuthorizationStatus::Accepted,
        begun: moment,
    })
}

/// Begins a transaction of CP01.
fn begin<S: Store>(
    alloc: Global,
    store: &mut S,
    number: u32,
    start: Start,
) -> Result<(), StoreFault> {
    let edit = Edit::Transactions(TransactionEdit::TxStarted {
        station: Text::copy_of(alloc, "CP01")?,
        number,
        start,
        owner: None,
    });
    apply(alloc, store, &edit)
}

/// A meter value of one reading, on connector 1.
fn meter_value_of(alloc: Global) -> Mem<MeterValue> {
    let reading = SampledValue {
        value: Text::copy_of(alloc, "z")?,
        context: ReadingContext::Other,
        format: ValueFormat::Raw,
        measurand: Measurand::Frequency,
        phase: None,
        location: Location::Inlet,
        unit: None,
    };
    Ok(MeterValue {
        connector: 1,
        transaction: None,
        at: 0,
        sampled: Listed::one(alloc, reading)?,
    })
}

/// Keeps a meter value of CP01.
fn keep<S: Store>(
    alloc: Global,
    store: &mut S,
    first: u32,
    value: MeterValue,
) -> Result<(), StoreFault> {
    let edit = Edit::Transactions(TransactionEdit::MeterValuesAdded {
        station: Text::copy_of(alloc, "CP01")?,
        first,
        values: Listed::one(alloc, value)?,
    });
    apply(alloc, store, &edit)
}

const SCRIPT: &str = r#"1704067200 ACME connect CP01
1704067200 ACME frame CP01 [2,"1","BootNotification",{"chargePointVendor":"V","chargePointModel":"M"}]
1704067200 ACME frame CP01 [2,"2","StartTransaction",{"connectorId":2,"idTag":"K2","meterStart":5,"timestamp":"2024-01-01T00:00:00Z"}]
1704067200 ACME frame CP01 [2,"3","StartTransaction",{"connectorId":3,"idTag":"K2","meterStart":5,"timestamp":"2024-01-01T00:00:00Z"}]
1704067200 ACME frame CP01 [2,"4","StartTransaction",{"connectorId":1,"idTag":"k1","meterStart":100,"timestamp":"2024-01-01T00:00:00Z"}]
1704067200 ACME frame CP01 [2,"5","MeterValues",{"connectorId":1,"meterValue":[{"sampledValue":[{"value":"1"},{"value":"2"},{"value":"3"}],"timestamp":"2024-01-01T00:00:00Z"}]}]
1704067200 ACME frame CP01 [2,"6","MeterValues",{"connectorId":3,"meterValue":[{"sampledValue":[{"value":"4"}],"timestamp":"2024-01-01T00:00:00Z"}]}]
1704067200 ACME frame CP01 [2,"7","StopTransaction",{"meterStop":9,"timestamp":"2024-01-01T00:00:00Z","transactionId":2147483646,"transactionData":[{"sampledValue":[{"value":"5"},{"value":"6"}],"timestamp":"2024-01-01T00:00:00Z"}]}]
1704067200 ACME frame CP01 [2,"8","StopTransaction",{"meterStop":9,"timestamp":"2024-01-01T00:00:00Z","transactionId":2147483647,"transactionData":[{"sampledValue":[{"value":"7"}],"timestamp":"2024-01-01T00:00:00Z"}]}]
1704067200 ACME frame CP01 [2,"9","MeterValues",{"connectorId":1,"meterValue":[{"sampledValue":[{"value":"8"}],"timestamp":"2024-01-01T00:00:00Z"}]}]
1704067200 ACME list transactions CP01
1704067200 ACME list readings CP01
"#;

const OUTPUT: &str =
    r#"ACME CP01 send [3,"1",{"currentTime":"2024-01-01T00:00:00Z","interval":300,"status":"Accepted"}]
ACME CP01 send [3,"2",{"idTagInfo":{"status":"Invalid"},"transactionId":2147483647}]
ACME CP01 send [4,"3","InternalError","",{}]
ACME CP01 send [3,"4",{"idTagInfo":{"status":"Invalid"},"transactionId":2147483646}]
ACME CP01 send [4,"5","InternalError","",{}]
ACME CP01 send [3,"6",{}]
ACME CP01 send [3,"7",{}]
ACME CP01 send [3,"8",{}]
ACME CP01 send [4,"9","InternalError","",{}]
ACME row transaction CP01 2147483646 1 "K1" Accepted 100 1704067200000 - 9 1704067200000 Local -
ACME row transaction CP01 2147483647 2 "K2" Invalid 5 1704067200000 - 9 1704067200000 Local -
ACME ok
ACME row reading CP01 2147483645 1 - 0 Other Raw Frequency - Inlet - - "z"
ACME row reading CP01 2147483646 3 - 1704067200000 Sample.Periodic Raw Energy.Active.Import.Register - Outlet - 4000000 "4"
ACME row reading CP01 2147483647 2 2147483647 1704067200000 Sample.Periodic Raw Energy.Active.Import.Register - Outlet - 7000000 "7"
ACME ok
"#;

/// A store whose CP01 has one transaction and one reading, two numbers and three before the end.
fn near_the_end(alloc: Global, moment: Moment) -> Result<MemStore, StoreFault> {
    let mut store = MemStore::new(alloc);
    add(alloc, &mut store)?;
    begin(alloc, &mut store, 2147483646, start_of(alloc, moment)?)?;
    keep(alloc, &mut store, 2147483645, meter_value_of(alloc)?)?;
    Ok(store)
}

#[test]
fn no_number_follows_the_last(rt: HostRuntime) -> Result<(), Fail> {
    let alloc = rt.alloc();
    let moment = Moment::new(1704067200).expect(&rt, "a moment");
    let vendors: Vec<Echo> = Vec::new(alloc);
    let mut hub = hub_of(alloc, near_the_end(alloc, moment)?, vendors)?;
    let events = events(alloc, SCRIPT)?;
    let met = run(alloc, &mut hub, events.as_slice())?;
    assert_eq!(rt; met.text.as_str(), OUTPUT);
    Ok(())
}

#[test]
fn no_call_follows_the_last(rt: HostRuntime) -> Result<(), Fail> {
    let alloc = rt.alloc();
    let moment = Moment::new(1704067200).expect(&rt, "a moment");
    let mut slots: Slots<Text> = Slots::new(alloc, LAST_NUMBER);
    drop(slots.connect("ACME", "CP01")?);
    assert!(rt; slots.ready("ACME", "CP01") == Ok(LAST_NUMBER));
    let command = Text::copy_of(alloc, "ClearCache")?;
    let text = Text::copy_of(alloc, "a call")?;
    let sent = slots.submit("ACME", "CP01", NewCall { command, text }, moment)?;
    assert!(rt; sent.is_some());
    assert!(rt; slots.ready("ACME", "CP01") == Err(Refusal::NumberSpent));
    Ok(())
}

//! What a cache takes, and that it asks its store once.

use crate::scripts::runs::{events, take_all};
use anyhow::Result;
use cached::Cached;
use failing_store::Failing;
use hub_rows::{
    Change, Edit, Flush, Info, MeterValue, Registration, Store, StoreFault, TransactionEdit,
};
use ocpp_types::{
    Listed, Location, Measurand, ReadingContext, SampledValue, TagKey, Text, UnitOfMeasure,
    ValueFormat,
};
use std::alloc::Global;
use std::fs;
use store_mem::MemStore;

/// A script of which BETA has a tag that it granted to ACME, and ACME a station.
const RECORDED: &str = "scripts/stopped/use_of_a_granted_tag.script";

/// Prints what caches of several capacities answer, and what look-ups are answered whose second asking would fail.
pub fn try_caches(rt: &HostRuntime) -> Result<()> {
    let alloc = rt.alloc();
    for capacity in [0, 1, 65_536, 65_537] {
        match Cached::new(alloc, MemStore::new(alloc), capacity) {
            Ok(_) => println!(rt; "a cache of {capacity}: made")?,
            Err(fault) => println!(rt; "a cache of {capacity}: {fault}")?,
        }
    }
    let lines = fs::read(rt, RECORDED)?;
    println!(rt; "asked twice: {}", asked_twice(alloc, lines.as_slice())?)?;
    println!(rt;
        "the last reading is known: {}",
        knows_last(alloc, lines.as_slice())?
    )?;
    Ok(())
}

/// Whether the number of a station's last reading is known after two more, of a store whose third call fails.
fn knows_last(alloc: Global, lines: &[u8]) -> Result<bool> {
    let (_, store) = take_all(alloc, MemStore::new(alloc), &events(alloc, lines)?)?;
    let mut cache = Cached::new(alloc, Failing::new(store, 2), 8)?;
    let last = cache.last_reading("ACME", "CP01")?;
    let edit = Edit::Transactions(TransactionEdit::MeterValuesAdded {
        station: Text::copy_of(alloc, "CP01")?,
        first: last + 1,
        values: Listed::one(alloc, meter_value(alloc)?)?,
    });
    let op = Text::copy_of(alloc, "ACME")?;
    let change = Change {
        op: &op,
        edit: &edit,
    };
    cache.apply(&change, Flush::AtOnce)?;
    let known = cache.last_reading("ACME", "CP01")? == last + 2;
    let asked = cache.last_reading("ACME", "CP02");
    Ok(known && matches!(asked, Err(StoreFault::Failed)))
}

/// A meter value of two readings.
fn meter_value(alloc: Global) -> Result<MeterValue> {
    let mut sampled = Listed::new(alloc);
    sampled.push(reading(alloc)?)?;
    sampled.push(reading(alloc)?)?;
    Ok(MeterValue {
        connector: 1,
        transaction: None,
        at: 0,
        sampled,
    })
}

fn reading(alloc: Global) -> Result<SampledValue> {
    Ok(SampledValue {
        value: Text::copy_of(alloc, "1")?,
        context: ReadingContext::SamplePeriodic,
        format: ValueFormat::Raw,
        measurand: Measurand::EnergyActiveImportRegister,
        phase: None,
        location: Location::Outlet,
        unit: Some(UnitOfMeasure::Wh),
    })
}

/// Whether each look-up that is kept is answered alike when it is asked again of a store that then fails.
fn asked_twice(alloc: Global, lines: &[u8]) -> Result<bool> {
    let key = TagKey::of(alloc, "K2")?;
    let mut own = failing(alloc, lines)?;
    let mut granted = failing(alloc, lines)?;
    let mut station = failing(alloc, lines)?;
    let first = same_tags(own.own_tag("BETA", &key), own.own_tag("BETA", &key));
    let second = same_tags(
        granted.granted_tag("ACME", &key),
        granted.granted_tag("ACME", &key),
    );
    let third = same_stations(
        station.station("ACME", "CP01"),
        station.station("ACME", "CP01"),
    );
    let other = matches!(own.own_tag("ACME", &key), Err(StoreFault::Failed));
    Ok(first && second && third && other)
}

/// Whether both answers are the same tag.
fn same_tags(
    first: Result<Option<Info>, StoreFault>,
    second: Result<Option<Info>, StoreFault>,
) -> bool {
    match (first, second) {
        (Ok(Some(first)), Ok(Some(second))) => {
            first.text.as_str() == second.text.as_str()
                && first.blocked == second.blocked
                && first.expiry == second.expiry
                && same_texts(&first.parent, &second.parent)
                && same_texts(&first.owner, &second.owner)
        }
        _ => false,
    }
}

fn same_texts(first: &Option<Text>, second: &Option<Text>) -> bool {
    match (first, second) {
        (Some(first), Some(second)) => first.as_str() == second.as_str(),
        (None, None) => true,
        _ => false,
    }
}

/// Whether both answers are of the same station on record.
fn same_stations(
    first: Result<Option<Registration>, StoreFault>,
    second: Result<Option<Registration>, StoreFault>,
) -> bool {
    match (first, second) {
        (Ok(Some(first)), Ok(Some(second))) => first == second,
        _ => false,
    }
}

/// A cache before a store with those records, whose second call fails.
fn failing(alloc: Global, lines: &[u8]) -> Result<Cached<Failing<MemStore>>> {
    let (_, store) = take_all(alloc, MemStore::new(alloc), &events(alloc, lines)?)?;
    Ok(Cached::new(alloc, Failing::new(store, 1), 8)?)
}

//! A store one call of which fails, for tests of what uses a store.
#![tactic(auto)]

ghost use Rattle.std.specs.Prelude.{◌+◌};

use hub_rows::{
    Change, ConnectorRow, Flush, GrantRow, GrantedTag, History, Info, LocalList, MeterValueRow,
    Reader, ReaderRow, Recovered, Registration, ReportRow, ReservationId, ReservationRow, StartKey,
    StationRow, Store, StoreFault, TagRow, TxKey, TxRow, TxState, UseRow,
};
use ocpp_types::{Listed, Moment, TagKey};

/// A store that answers one call with Failed, and hands all others to another store.
#[derive(Drop)]
pub struct Failing<S> {
    store: S,
    /// How many calls come before the one that fails, if that is still to come.
    before: Option<u64>,
    failures: u64,
}

impl<S> Failing<S> {
    /// The store, whose call after the next `before` ones fails.
    pub fn new(store: S, before: u64) -> Failing<S> {
        Failing {
            store,
            before: Some(before),
            failures: 0,
        }
    }

    fn count_call(&mut self) -> Result<(), StoreFault> {
        match self.before {
            Some(0) => {
                self.before = None;
                self.failures += 1;
                Err(StoreFault::Failed)
            }
            None => Ok(()),
            Some(before) => {
                self.before = Some(before - 1);
                Ok(())
            }
        }
    }
}

impl<S: Store> Store for Failing<S> {
    ghost view = { λ s. record (S.view s.store) { failures = s.failures + (S.view s.store).failures } };

    ghost well_formed = { λ s clean. S.well_formed s.store clean };

    fn station(&mut self, op: &str, station: &str) -> Result<Option<Registration>, StoreFault> {
        self.count_call()?;
        self.store.station(op, station)
    }

    fn own_tag(&mut self, op: &str, key: &TagKey) -> Result<Option<Info>, StoreFault> {
        self.count_call()?;
        self.store.own_tag(op, key)
    }

    fn granted_tag(&mut self, op: &str, key: &TagKey) -> Result<Option<Info>, StoreFault> {
        self.count_call()?;
        self.store.granted_tag(op, key)
    }

    fn has_grant(&mut self, op: &str, key: &TagKey, to: &str) -> Result<bool, StoreFault> {
        self.count_call()?;
        self.store.has_grant(op, key, to)
    }

    fn is_used(
        &mut self,
        op: &str,
        key: &TagKey,
        except: &Option<TxKey>,
    ) -> Result<bool, StoreFault> {
        self.count_call()?;
        self.store.is_used(op, key, except)
    }

    fn same_start(
        &mut self,
        op: &str,
        station: &str,
        start: &StartKey,
    ) -> Result<Option<u32>, StoreFault> {
        self.count_call()?;
        self.store.same_start(op, station, start)
    }

    fn tx(&mut self, op: &str, station: &str, number: u32) -> Result<Option<TxState>, StoreFault> {
        self.count_call()?;
        self.store.tx(op, station, number)
    }

    fn has_open(&mut self, op: &str, station: &str) -> Result<bool, StoreFault> {
        self.count_call()?;
        self.store.has_open(op, station)
    }

    fn last_tx(&mut self, op: &str, station: &str) -> Result<u32, StoreFault> {
        self.count_call()?;
        self.store.last_tx(op, station)
    }

    fn last_reading(&mut self, op: &str, station: &str) -> Result<u32, StoreFault> {
        self.count_call()?;
        self.store.last_reading(op, station)
    }

    fn reserved_until(
        &mut self,
        op: &str,
        station: &str,
        id: ReservationId,
    ) -> Result<Option<Moment>, StoreFault> {
        self.count_call()?;
        self.store.reserved_until(op, station, id)
    }

    fn local_list(&mut self, op: &str, station: &str) -> Result<Option<LocalList>, StoreFault> {
        self.count_call()?;
        self.store.local_list(op, station)
    }

    fn stations(&mut self, op: &str) -> Result<Listed<StationRow>, StoreFault> {
        self.count_call()?;
        self.store.stations(op)
    }

    fn tags(&mut self, op: &str) -> Result<Listed<TagRow>, StoreFault> {
        self.count_call()?;
        self.store.tags(op)
    }

    fn grants_out(&mut self, op: &str) -> Result<Listed<GrantRow>, StoreFault> {
        self.count_call()?;
        self.store.grants_out(op)
    }

    fn granted(&mut self, op: &str) -> Result<Listed<GrantedTag>, StoreFault> {
        self.count_call()?;
        self.store.granted(op)
    }

    fn connectors(&mut self, op: &str, station: &str) -> Result<Listed<ConnectorRow>, StoreFault> {
        self.count_call()?;
        self.store.connectors(op, station)
    }

    fn txs(&mut self, op: &str, station: &str, first: u32) -> Result<Listed<TxRow>, StoreFault> {
        self.count_call()?;
        self.store.txs(op, station, first)
    }

    fn open_txs(&mut self, op: &str) -> Result<Listed<TxRow>, StoreFault> {
        self.count_call()?;
        self.store.open_txs(op)
    }

    fn forgettable(
        &mut self,
        op: &str,
        station: &str,
        until: Moment,
    ) -> Result<History, StoreFault> {
        self.count_call()?;
        self.store.forgettable(op, station, until)
    }

    fn meter_values(
        &mut self,
        op: &str,
        station: &str,
        transaction: Option<u64>,
    ) -> Result<Listed<MeterValueRow>, StoreFault> {
        self.count_call()?;
        self.store.meter_values(op, station, transaction)
    }

    fn reservations(
        &mut self,
        op: &str,
        station: &str,
    ) -> Result<Listed<ReservationRow>, StoreFault> {
        self.count_call()?;
        self.store.reservations(op, station)
    }

    fn reports(&mut self, op: &str, station: &str) -> Result<Listed<ReportRow>, StoreFault> {
        self.count_call()?;
        self.store.reports(op, station)
    }

    fn uses(&mut self, op: &str) -> Result<Listed<UseRow>, StoreFault> {
        self.count_call()?;
        self.store.uses(op)
    }

    fn reader(&mut self, op: &str, station: &str) -> Result<Reader, StoreFault> {
        self.count_call()?;
        self.store.reader(op, station)
    }

    fn readers(&mut self, op: &str) -> Result<Listed<ReaderRow>, StoreFault> {
        self.count_call()?;
        self.store.readers(op)
    }

    fn apply(&mut self, change: &Change<'_>, when: Flush) -> Result<(), StoreFault> {
        self.count_call()?;
        self.store.apply(change, when)
    }

    fn flush(&mut self) -> Result<(), StoreFault> {
        self.store.flush()
    }

    fn recover(&mut self) -> Result<Recovered, StoreFault> {
        self.store.recover()
    }
}

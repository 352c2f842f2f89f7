//! The table of requests that a tolerant reader takes.

use crate::tables::commands::fault_told;
use anyhow::{Result, bail};
use json::Scratch;
use json_data::read_value;
use ocpp_payload::{Action, MeterValue, Request};
use ocpp_types::{Moment, Named, SampledValue};
use repairs::{Reading, read_tolerant};
use std::alloc::Global;

/// What a tolerant reader makes of a payload of that action at that moment: `as sent`, or the fault
/// with what is read in its place, or the fault that is left.
pub fn tolerant_reading(
    alloc: Global,
    action: &str,
    moment: &str,
    payload: &str,
) -> Result<String> {
    let Some(action) = Action::of(action) else {
        bail!("no such action");
    };
    let Some(moment) = Moment::new(moment.parse::<u64>()?) else {
        bail!("no such moment");
    };
    let name = action.name();
    let text = format!(in alloc; "[2,\"1\",\"{name}\",{payload}]")?;
    let mut scratch = Scratch::new(alloc);
    let Some(payload) = read_value(alloc, &mut scratch, payload)? else {
        bail!("no JSON");
    };
    match read_tolerant(alloc, action, moment, text.as_str(), &payload)? {
        Reading::AsSent(_request) => Ok("as sent".to_string(alloc)?),
        Reading::Refused(fault) => {
            let fault = fault_told(alloc, &fault)?;
            Ok(format!(in alloc; "refused, {fault}")?)
        }
        Reading::Repaired { request, fault } => {
            let fault = fault_told(alloc, &fault)?;
            let request = request_told(alloc, &request)?;
            Ok(format!(in alloc; "{fault}: {request}")?)
        }
    }
}

/// The members of a request that may be repaired.
fn request_told(alloc: Global, request: &Request) -> Result<String> {
    match request {
        Request::BootNotification(boot) => {
            let boot = boot.as_ref();
            let (model, vendor) = (&boot.charge_point_model, &boot.charge_point_vendor);
            Ok(format!(in alloc; "{model}, {vendor}")?)
        }
        Request::DiagnosticsStatusNotification(report) => {
            Ok(report.status.name().to_string(alloc)?)
        }
        Request::FirmwareStatusNotification(report) => Ok(report.status.name().to_string(alloc)?),
        Request::MeterValues(sent) => {
            let values = values_told(alloc, sent.meter_value.as_slice())?;
            let (connector, transaction) = (sent.connector_id, sent.transaction_id.unwrap_or(0));
            Ok(format!(in alloc; "{connector}, {transaction}{values}")?)
        }
        Request::StartTransaction(start) => {
            let (connector, meter, at) = (start.connector_id, start.meter_start, start.timestamp);
            Ok(format!(in alloc; "{connector}, {meter}, {at}")?)
        }
        Request::StatusNotification(report) => {
            let report = report.as_ref();
            let (error, status) = (report.error_code.name(), report.status.name());
            let at = report.timestamp.unwrap_or(0);
            Ok(format!(in alloc; "{error}, {status}, {at}")?)
        }
        Request::StopTransaction(stop) => {
            let values = values_told(alloc, stop.transaction_data.as_slice())?;
            let (meter, at, reason) = (stop.meter_stop, stop.timestamp, stop.reason.name());
            Ok(format!(in alloc; "{meter}, {at}, {reason}{values}")?)
        }
        _ => Ok("no repair is known".to_string(alloc)?),
    }
}

/// The time of each meter value, and its sampled values.
fn values_told(alloc: Global, values: &[MeterValue]) -> Result<String> {
    let mut told = String::new(alloc);
    for value in values {
        let at = value.timestamp;
        told.push_str(format!(in alloc; " <{at}")?.as_str())?;
        for sampled in value.sampled_value.as_slice() {
            told.push_str(sampled_told(alloc, sampled)?.as_str())?;
        }
        told.push('>')?;
    }
    Ok(told)
}

fn sampled_told(alloc: Global, sampled: &SampledValue) -> Result<String> {
    let (text, measurand) = (&sampled.value, sampled.measurand.name());
    let phase = sampled.phase.map_or("-", |phase| phase.name());
    let unit = sampled.unit.map_or("-", |unit| unit.name());
    Ok(format!(in alloc; " {text} {measurand} {phase} {unit}")?)
}

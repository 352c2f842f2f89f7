//! Tables of names.

use anyhow::{Result, bail};
use ocpp_payload::{Action, ActionClass, action_class};
use ocpp_types::{
    AuthorizationStatus, ChargePointErrorCode, ChargePointStatus, DataTransferStatus,
    DiagnosticsStatus, ErrorCode, FirmwareStatus, Location, Measurand, Named, Phase, Policy,
    ReadingContext, Reason, State, UnitOfMeasure, ValueFormat,
};
use std::alloc::Global;

/// The name of the value that a name is read as in that enumeration, or `none`.
pub fn name_read(alloc: Global, enumeration: &str, name: &str) -> Result<String> {
    match enumeration {
        "Action" => name_of::<Action>(alloc, name),
        "AuthorizationStatus" => name_of::<AuthorizationStatus>(alloc, name),
        "ChargePointErrorCode" => name_of::<ChargePointErrorCode>(alloc, name),
        "ChargePointStatus" => name_of::<ChargePointStatus>(alloc, name),
        "DataTransferStatus" => name_of::<DataTransferStatus>(alloc, name),
        "DiagnosticsStatus" => name_of::<DiagnosticsStatus>(alloc, name),
        "ErrorCode" => name_of::<ErrorCode>(alloc, name),
        "FirmwareStatus" => name_of::<FirmwareStatus>(alloc, name),
        "Location" => name_of::<Location>(alloc, name),
        "Measurand" => name_of::<Measurand>(alloc, name),
        "Phase" => name_of::<Phase>(alloc, name),
        "Policy" => name_of::<Policy>(alloc, name),
        "ReadingContext" => name_of::<ReadingContext>(alloc, name),
        "Reason" => name_of::<Reason>(alloc, name),
        "State" => name_of::<State>(alloc, name),
        "UnitOfMeasure" => name_of::<UnitOfMeasure>(alloc, name),
        "ValueFormat" => name_of::<ValueFormat>(alloc, name),
        _ => bail!("no such enumeration"),
    }
}

fn name_of<E: Named>(alloc: Global, name: &str) -> Result<String> {
    let read = match E::of(name) {
        Some(value) => value.name(),
        None => "none",
    };
    Ok(read.to_string(alloc)?)
}

/// What the name of an action stands for.
pub fn class_of_action(alloc: Global, name: &str) -> Result<String> {
    let class = match action_class(name) {
        ActionClass::Known(action) => action.name(),
        ActionClass::NotSupported => "NotSupported",
        ActionClass::NotImplemented => "NotImplemented",
    };
    Ok(class.to_string(alloc)?)
}

//! The table of requests.

use crate::tables::commands::fault_told;
use anyhow::{Result, bail};
use json::Scratch;
use json_data::read_value;
use ocpp_payload::{Action, read_request};
use ocpp_types::Named;
use std::alloc::Global;

/// What a payload of that action gives: `read`, or the code and the member at fault.
pub fn request_read(alloc: Global, action: &str, payload: &str) -> Result<String> {
    let Some(action) = Action::of(action) else {
        bail!("no such action");
    };
    let mut scratch = Scratch::new(alloc);
    let Some(payload) = read_value(alloc, &mut scratch, payload)? else {
        bail!("no JSON");
    };
    match read_request(alloc, action, &payload)? {
        Ok(_request) => Ok("read".to_string(alloc)?),
        Err(fault) => fault_told(alloc, &fault),
    }
}

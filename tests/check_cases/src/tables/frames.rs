//! Tables of frames.

use anyhow::{Result, bail};
use json::to_vec;
use ocpp_frame::{Frame, FrameReader, Payload, write_call, write_error, write_result};
use serde_json::Value;
use std::alloc::Global;

/// The frame that a text is: its kind and its parts, `|` between them.
pub fn frame_read(alloc: Global, text: &str) -> Result<String> {
    let mut reader = FrameReader::new(alloc);
    let frame = reader.read(text)?;
    frame_shown(alloc, &frame)
}

fn frame_shown(alloc: Global, frame: &Frame<'_>) -> Result<String> {
    Ok(match frame {
        Frame::Call {
            id,
            action,
            payload,
        } => {
            let payload = payload_shown(alloc, payload)?;
            format!(in alloc; "Call|{id}|{action}|{payload}")?
        }
        Frame::CallResult { id, payload } => {
            let payload = payload_shown(alloc, payload)?;
            format!(in alloc; "CallResult|{id}|{payload}")?
        }
        Frame::CallError {
            id,
            code,
            description,
        } => format!(in alloc; "CallError|{id}|{code}|{description}")?,
        Frame::Broken { id } => format!(in alloc; "Broken|{id}")?,
        Frame::Ignored => "Ignored".to_string(alloc)?,
    })
}

/// A payload as `serde_json` writes what it reads of it.
fn payload_shown(alloc: Global, payload: &Payload<'_>) -> Result<String> {
    let text = String::from_utf8(to_vec(alloc, payload.as_value())?).unwrap();
    Ok(Value::from_str(alloc, text.as_str())?.to_string(alloc)?)
}

/// The text of a frame of that kind and those parts, as `frame_read` has them.
pub fn frame_written(alloc: Global, kind: &str, parts: &[String]) -> Result<String> {
    match (kind, parts) {
        ("Call", [id, action, payload]) => {
            call_written(alloc, id.as_str(), action.as_str(), payload.as_str())
        }
        ("CallResult", [id, payload]) => result_written(alloc, id.as_str(), payload.as_str()),
        ("CallError", [id, code, description]) => {
            let description = description.as_str();
            Ok(write_error(alloc, id.as_str(), code.as_str(), description)?)
        }
        _ => bail!("no such frame"),
    }
}

fn call_written(alloc: Global, id: &str, action: &str, payload: &str) -> Result<String> {
    let payload = Value::from_str(alloc, payload)?;
    Ok(write_call(alloc, id, action, payload)?)
}

fn result_written(alloc: Global, id: &str, payload: &str) -> Result<String> {
    let payload = Value::from_str(alloc, payload)?;
    Ok(write_result(alloc, id, payload)?)
}

//! The tables of commands and of the answers to them.

use anyhow::{Result, bail};
use json::Scratch;
use json_data::read_value;
use ocpp_payload::FieldFault;
use ocpp_types::Named;
use operator_cmds::{
    Command, KnownMembers, action_name_of, bad_field, read_answer, read_command, write_request,
};
use serde_json::Value;
use std::alloc::Global;

/// What a payload of that action gives: the request, or `bad` and the bad member, or `none`.
pub fn command_sent(alloc: Global, action: &str, payload: &str) -> Result<String> {
    match command_of(alloc, action, payload)? {
        Some(command) => request_told(alloc, &command),
        None => Ok("none".to_string(alloc)?),
    }
}

/// What is told of an answer to the command of that action and payload.
pub fn answer_told(alloc: Global, action: &str, payload: &str, answer: &str) -> Result<String> {
    match command_of(alloc, action, payload)? {
        Some(command) => known_told(alloc, &command, answer),
        None => bail!("no such command"),
    }
}

fn command_of(alloc: Global, action: &str, payload: &str) -> Result<Option<Command>> {
    let mut scratch = Scratch::new(alloc);
    match read_value(alloc, &mut scratch, payload)? {
        Some(payload) => Ok(read_command(alloc, action, &payload)?),
        None => bail!("no JSON"),
    }
}

fn request_told(alloc: Global, command: &Command) -> Result<String> {
    if let Some(field) = bad_field(command) {
        let field = field.as_str();
        return Ok(format!(in alloc; "bad {field}")?);
    }
    let action = action_name_of(command);
    let request = write_request(alloc, command)?.to_string(alloc)?;
    Ok(format!(in alloc; "{action} {request}")?)
}

fn known_told(alloc: Global, command: &Command, answer: &str) -> Result<String> {
    let mut scratch = Scratch::new(alloc);
    let Some(answer) = read_value(alloc, &mut scratch, answer)? else {
        bail!("no JSON");
    };
    match read_answer(alloc, command, &answer)? {
        Ok(known) => payload_told(alloc, &known),
        Err(fault) => fault_told(alloc, &fault),
    }
}

fn payload_told(alloc: Global, known: &KnownMembers) -> Result<String> {
    let known = known.as_value().to_string(alloc)?;
    Ok(format!(in alloc; "Answer {known}")?)
}

/// Whether the known members of an answer accept the command.
pub fn command_accepted(alloc: Global, answer: &str) -> Result<String> {
    let answer = KnownMembers::from(Value::from_str(alloc, answer)?);
    let told = if answer.is_accepted() {
        "accepted"
    } else {
        "not accepted"
    };
    Ok(told.to_string(alloc)?)
}

/// The code and the member of a fault.
pub fn fault_told(alloc: Global, fault: &FieldFault) -> Result<String> {
    let code = fault.code.name();
    let field = fault.field.as_str();
    Ok(format!(in alloc; "{code} {field}")?)
}

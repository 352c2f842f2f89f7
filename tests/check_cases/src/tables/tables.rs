//! The function of each table.

use crate::tables::commands::{answer_told, command_accepted, command_sent};
use crate::tables::enumerations::{class_of_action, name_read};
use crate::tables::frames::{frame_read, frame_written};
use crate::tables::journal::line_in_journal;
use crate::tables::paths::path_followed;
use crate::tables::requests::request_read;
use crate::tables::tolerant::tolerant_reading;
use crate::tables::values::{
    characters, moment_printed, number_of_reading, operators_hosted, sampled_values, tag_key,
    time_read,
};
use anyhow::{Result, bail};
use std::alloc::Global;

/// What the function of that table gives for those texts.
pub fn given(alloc: Global, table: &str, texts: &[String]) -> Result<String> {
    match table {
        "accepted_commands"
        | "answers_of_stations"
        | "commands"
        | "frames_read"
        | "frames_written"
        | "requests"
        | "tolerant_requests" => given_for_messages(alloc, table, texts),
        _ => given_for_values(alloc, table, texts),
    }
}

fn given_for_messages(alloc: Global, table: &str, texts: &[String]) -> Result<String> {
    match (table, texts) {
        ("accepted_commands", [answer]) => command_accepted(alloc, answer.as_str()),
        ("answers_of_stations", [action, payload, answer]) => {
            answer_told(alloc, action.as_str(), payload.as_str(), answer.as_str())
        }
        ("commands", [action, payload]) => {
            command_sent(alloc, action.as_str(), payload.as_str())
        }
        ("frames_read", [text]) => frame_read(alloc, text.as_str()),
        ("frames_written", [kind, texts @ ..]) => frame_written(alloc, kind.as_str(), texts),
        ("requests", [action, payload]) => {
            request_read(alloc, action.as_str(), payload.as_str())
        }
        ("tolerant_requests", [action, moment, payload]) => {
            tolerant_reading(alloc, action.as_str(), moment.as_str(), payload.as_str())
        }
        _ => bail!("another number of texts"),
    }
}

fn given_for_values(alloc: Global, table: &str, texts: &[String]) -> Result<String> {
    match (table, texts) {
        ("action_classes", [name]) => class_of_action(alloc, name.as_str()),
        ("characters", [text]) => characters(alloc, text.as_str()),
        ("enumerations", [enumeration, name]) => {
            name_read(alloc, enumeration.as_str(), name.as_str())
        }
        ("journal_lines", [line]) => line_in_journal(alloc, line.as_str()),
        ("moments", [seconds]) => moment_printed(alloc, seconds.as_str()),
        ("numbers_of_readings", [unit, text]) => {
            number_of_reading(alloc, unit.as_str(), text.as_str())
        }
        ("operators", names) => operators_hosted(alloc, names),
        ("paths", [path]) => path_followed(alloc, path.as_str()),
        ("sampled_values", [text]) => sampled_values(alloc, text.as_str()),
        ("tag_keys", [tag]) => tag_key(alloc, tag.as_str()),
        ("times", [text]) => time_read(alloc, text.as_str()),
        _ => bail!("no such table, or another number of texts"),
    }
}

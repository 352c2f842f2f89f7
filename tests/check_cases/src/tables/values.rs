//! Tables of moments, times, numbers, sampled values and names.

use anyhow::{Result, bail};
use hub_rows::are_operators;
use meter_values::{read_sampled, write_sampled};
use ocpp_types::{
    Moment, Named, TagKey, Text, UnitOfMeasure, count_characters, parse_time, print_time,
    read_micro,
};
use std::alloc::Global;

/// A number of seconds since 1970, printed, or `none` if it is no moment.
pub fn moment_printed(alloc: Global, seconds: &str) -> Result<String> {
    match Moment::new(seconds.parse::<u64>()?) {
        Some(moment) => Ok(print_time(alloc, moment)?),
        None => Ok("none".to_string(alloc)?),
    }
}

/// The milliseconds since 1970 of a time, or `none` if it isn't read.
pub fn time_read(alloc: Global, text: &str) -> Result<String> {
    match parse_time(text) {
        Some(milliseconds) => Ok(milliseconds.to_string(alloc)?),
        None => Ok("none".to_string(alloc)?),
    }
}

/// The millionths of a reading of that unit, or `none`; `-` is no unit.
pub fn number_of_reading(alloc: Global, unit: &str, text: &str) -> Result<String> {
    let of = UnitOfMeasure::of(unit);
    if of.is_none() && unit != "-" {
        bail!("no such unit");
    }
    match read_micro(text, of) {
        Some(millionths) => Ok(millionths.to_string(alloc)?),
        None => Ok("none".to_string(alloc)?),
    }
}

/// The text of the sampled values that a text is, or `none` if it isn't read.
pub fn sampled_values(alloc: Global, text: &str) -> Result<String> {
    match read_sampled(alloc, text)? {
        Some(sampled) => {
            let text = write_sampled(alloc, sampled.as_slice())?;
            Ok(text.as_str().to_string(alloc)?)
        }
        None => Ok("none".to_string(alloc)?),
    }
}

/// The key of a tag.
pub fn tag_key(alloc: Global, tag: &str) -> Result<String> {
    Ok(TagKey::of(alloc, tag)?.as_str().to_string(alloc)?)
}

/// How many characters a text has.
pub fn characters(alloc: Global, text: &str) -> Result<String> {
    Ok(count_characters(text).to_string(alloc)?)
}

/// Whether operators of these names can be hosted.
pub fn operators_hosted(alloc: Global, names: &[String]) -> Result<String> {
    let mut operators = Vec::new(alloc);
    for name in names {
        operators.push(Text::copy_of(alloc, name.as_str())?)?;
    }
    let answer = if are_operators(&operators) {
        "hosted"
    } else {
        "refused"
    };
    Ok(answer.to_string(alloc)?)
}

//! The table of a journal's lines.

use anyhow::{Context, Result, bail};
use hub::Event;
use lines::{Line, journal_line, read_line};
use ocpp_types::Text;
use std::alloc::Global;

/// The line of a journal for the event of a line of input, or `bad`. Read again it has the same line.
pub fn line_in_journal(alloc: Global, line: &str) -> Result<String> {
    let Some(event) = event_of(alloc, line)? else {
        return Ok("bad".to_string(alloc)?);
    };
    let written = journal_line(alloc, &event, order_in(line))?;
    let again = event_of(alloc, written.as_str())?.context("its line is bad")?;
    let twice = journal_line(alloc, &again, order_in(written.as_str()))?;
    if written != twice {
        bail!("read again it is {twice:?}");
    }
    Ok(written)
}

fn event_of(alloc: Global, line: &str) -> Result<Option<Event>> {
    let mut hosted = Vec::new(alloc);
    hosted.push(Text::copy_of(alloc, "ACME")?)?;
    match read_line(alloc, &hosted, line.as_bytes())? {
        Line::Event(event) => Ok(Some(event)),
        Line::Nothing | Line::Bad => Ok(None),
    }
}

/// What follows the moment and the operator.
fn order_in(line: &str) -> &str {
    line.splitn(3, ' ').nth(2).unwrap_or("")
}

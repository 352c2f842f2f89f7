//! The files of tables, and the cases in them.

use crate::tables::tables::given;
use crate::tally::Tally;
use anyhow::{Context, Result, ensure};
use serde_json::Value;
use std::alloc::Global;
use std::fs;
use std::rt::Files;

/// The names of the tables of this folder, in their order.
pub fn tables<R: Files + AllocGlobal + Clone + Drop>(rt: &R) -> Result<Vec<String>> {
    let mut tables = Vec::new(rt.alloc());
    for entry in fs::read_dir(rt, "tables")? {
        let entry = entry?;
        if let Some(table) = entry.file_name().strip_suffix(".txt") {
            tables.push(table.to_string(rt.alloc())?)?;
        }
    }
    tables.sort_unstable();
    Ok(tables)
}

/// Checks the cases of a table, of which there is at least one.
pub fn check_table<R: Files + AllocGlobal + Print>(
    rt: &R,
    table: &str,
    tally: &mut Tally,
) -> Result<()> {
    let file = format!(in rt.alloc(); "tables/{table}.txt")?;
    let text = fs::read_to_string(rt, file).context(format_args!("reading {table}"))?;
    let mut is_empty = true;
    for (number, line) in (1..u64::MAX).zip(text.as_str().lines()) {
        if line.is_empty() || line.starts_with('#') {
            continue;
        }
        let passes = check_case(rt, table, number, line).context(format_args!(
            "{table}, line {number}"
        ))?;
        tally.count(passes);
        is_empty = false;
    }
    ensure!(!is_empty, "{table} has no case");
    Ok(())
}

/// Whether the case gives what it is to give; if not, prints both.
fn check_case<R: AllocGlobal + Print>(
    rt: &R,
    table: &str,
    number: u64,
    line: &str,
) -> Result<bool> {
    let columns = columns(rt.alloc(), line)?;
    let Some((wanted, texts)) = columns.as_slice().split_last() else {
        return Ok(false);
    };
    let got = given(rt.alloc(), table, texts)?;
    if got == *wanted {
        return Ok(true);
    }
    println!(rt; "{table}, line {number}: wanted {wanted:?}, got {got:?}")?;
    Ok(false)
}

/// The texts of a line.
fn columns(alloc: Global, line: &str) -> Result<Vec<String>> {
    let mut columns = Vec::new(alloc);
    for column in line.split('\t') {
        columns.push(spelled(alloc, column)?)?;
    }
    Ok(columns)
}

/// The text that a column spells.
fn spelled(alloc: Global, column: &str) -> Result<String> {
    if !column.starts_with('"') {
        return Ok(column.to_string(alloc)?);
    }
    match Value::from_str(alloc, column)? {
        Value::String(text) => Ok(text),
        _ => Ok(column.to_string(alloc)?),
    }
}

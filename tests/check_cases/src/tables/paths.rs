//! Paths.
use anyhow::Result;
use std::alloc::Global;
use ws_peers::Route;
use ws_peers::paths::route;

/// Where a path leads.
pub fn path_followed(alloc: Global, path: &str) -> Result<String> {
    match route(alloc, path)? {
        Some(Route::Station(op, name)) => Ok(format!(in alloc; "station {op} {name}")?),
        Some(Route::Operator(op)) => Ok(format!(in alloc; "operator {op}")?),
        None => Ok("nothing".to_string(alloc)?),
    }
}

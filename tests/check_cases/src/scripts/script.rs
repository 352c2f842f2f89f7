//! The files of scripts.

use anyhow::Result;
use ocpp_types::Text;
use std::alloc::Global;
use std::fs;
use std::path::Path;
use std::rt::Files;

/// The folder of the scripts.
pub const FOLDER: &str = "scripts";

/// The folders of scripts and databases in it, by subject.
const FOLDERS: &[&str] = &[
    "commands",
    "connections",
    "databases",
    "frames",
    "grants",
    "history",
    "lines",
    "local_lists",
    "operators",
    "readings",
    "reports",
    "reservations",
    "stations",
    "tags",
    "tolerant",
    "transactions",
    "uses",
    "vendors",
];

/// The names of the files with that ending, without it and with their folder, in their order.
pub fn names<R: Files + AllocGlobal + Clone + Drop>(rt: &R, ending: &str) -> Result<Vec<String>> {
    let alloc = rt.alloc();
    let mut names = Vec::new(alloc);
    for folder in FOLDERS {
        for entry in fs::read_dir(rt, format!(in alloc; "{FOLDER}/{folder}")?)? {
            let entry = entry?;
            if let Some(name) = entry.file_name().strip_suffix(ending) {
                names.push(format!(in alloc; "{folder}/{name}")?)?;
            }
        }
    }
    names.sort_unstable();
    Ok(names)
}

/// The lines of a script.
pub fn lines_of<R: Files + AllocGlobal>(rt: &R, name: &str) -> Result<Vec<u8>> {
    let path = format!(in rt.alloc(); "{FOLDER}/{name}.script")?;
    Ok(fs::read(rt, path)?)
}

/// What a replay of a script is to write.
pub fn wanted_of<R: Files + AllocGlobal>(rt: &R, name: &str) -> Result<String> {
    let path = format!(in rt.alloc(); "{FOLDER}/{name}.expected")?;
    Ok(fs::read_to_string(rt, path)?)
}

/// The operators of a script: those of its file, commas between them, or else ACME and BETA.
pub fn operators_of<R: Files + AllocGlobal>(rt: &R, name: &str) -> Result<Vec<Text>> {
    let path = format!(in rt.alloc(); "{FOLDER}/{name}.operators")?;
    if !Path::new(path.as_str()).exists(rt) {
        return parts(rt.alloc(), "ACME,BETA");
    }
    let text = fs::read_to_string(rt, path)?;
    parts(rt.alloc(), text.as_str().trim_end_matches('\n'))
}

/// The parts between commas, empty ones too.
pub fn parts(alloc: Global, text: &str) -> Result<Vec<Text>> {
    let mut parts = Vec::new(alloc);
    for part in text.split(',') {
        parts.push(Text::copy_of(alloc, part)?)?;
    }
    Ok(parts)
}

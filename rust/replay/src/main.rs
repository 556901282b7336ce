//! Writes the files of the program `replay`: the list that it reads, and what it must write. Usage:
//! `replay [FOLDER]`, by default crates/replay.

use std::fs;
use std::path::PathBuf;

fn main() -> std::io::Result<()> {
    let default = || PathBuf::from(concat!(env!("CARGO_MANIFEST_DIR"), "/../../crates/replay"));
    let folder = std::env::args_os()
        .nth(1)
        .map_or_else(default, PathBuf::from);
    fs::write(folder.join("stdin"), replay::list())?;
    fs::write(folder.join("stdout"), replay::told())
}

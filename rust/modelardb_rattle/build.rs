//! Links the proved static libraries, those named in libraries.txt, from the folder that
//! MODELARDB_STATICLIB names or else from the repository's own target/staticlib; they are for x86-64, or for
//! the processor that MODELARDB_STATICLIB_ARCH names. Says in words what
//! stands in the way: a machine that they are not made for, or which of them are not there.

use std::env;
use std::path::{Path, PathBuf};
use std::process::ExitCode;

const LIBRARIES: &str = include_str!("../libraries.txt");

/// The variable that may name the folder of the libraries.
const FOLDER: &str = "MODELARDB_STATICLIB";

/// The variable that may name another processor than x86-64 that they are for, as `tools/here` makes them.
const PROCESSOR: &str = "MODELARDB_STATICLIB_ARCH";

fn main() -> ExitCode {
    match linked() {
        Ok(()) => ExitCode::SUCCESS,
        Err(why) => {
            eprintln!("{why}");
            ExitCode::FAILURE
        }
    }
}

/// Tells cargo what to link, or why it cannot be.
fn linked() -> Result<(), String> {
    allowed_target()?;
    let named = env::var_os(FOLDER).map(PathBuf::from);
    let folder = named.clone().unwrap_or_else(own_folder);
    let file = |name: &str| folder.join(format!("lib{name}.a"));
    let names: Vec<&str> = LIBRARIES.split_whitespace().collect();
    let missing: Vec<&str> = names
        .iter()
        .copied()
        .filter(|name| !folder.is_absolute() || !file(name).is_file())
        .collect();
    if !missing.is_empty() {
        return Err(not_there(&folder, named.is_some(), &missing));
    }
    println!("cargo::rerun-if-changed=../libraries.txt");
    println!("cargo::rerun-if-env-changed={FOLDER}");
    println!("cargo::rerun-if-env-changed={PROCESSOR}");
    println!("cargo::rustc-link-search=native={}", folder.display());
    for name in names {
        println!("cargo::rerun-if-changed={}", file(name).display());
        println!("cargo::rustc-link-lib=static={name}");
    }
    Ok(())
}

/// The libraries are made for x86-64 Linux alone, but for those that are named as made for something else.
fn allowed_target() -> Result<(), String> {
    let of = |part| env::var(format!("CARGO_CFG_TARGET_{part}")).unwrap_or_default();
    let (arch, os) = (of("ARCH"), of("OS"));
    let made_for = env::var(PROCESSOR).unwrap_or_else(|_| "x86_64".to_owned());
    if (arch.as_str(), os.as_str()) == (made_for.as_str(), "linux") {
        return Ok(());
    }
    Err(format!(
        "The proved static libraries link into programs for {made_for} Linux alone, and this build is for {arch} {os}.\n\
         Elsewhere ./check in the repository's root still proves everything."
    ))
}

/// target/staticlib in the repository's root, which is two folders up.
fn own_folder() -> PathBuf {
    let crate_folder = Path::new(env!("CARGO_MANIFEST_DIR"));
    let root = crate_folder.ancestors().nth(2).unwrap_or(crate_folder);
    root.join("target/staticlib")
}

/// Which libraries a folder lacks, and what to do.
fn not_there(folder: &Path, is_named: bool, missing: &[&str]) -> String {
    let files: String = missing
        .iter()
        .map(|name| format!("  lib{name}.a\n"))
        .collect();
    let remedy = if is_named {
        format!("That folder is named by the variable {FOLDER}, which takes a whole path.")
    } else {
        format!(
            "Make them in the repository's root with: tools/archives\n\
             Or let the variable {FOLDER} name a folder that holds all of them."
        )
    };
    let folder = folder.display();
    format!("Of the proved static libraries these are not in {folder}:\n{files}{remedy}")
}

//! How an example ends: with its text, or with what was wrong.

use std::io::{ErrorKind, Write, stderr, stdout};
use std::process::ExitCode;

pub fn told(text: Result<impl AsRef<[u8]>, String>) -> ExitCode {
    match text.and_then(|text| written(text.as_ref())) {
        Ok(()) => ExitCode::SUCCESS,
        Err(why) => {
            // Where nobody reads that either, the code alone says it.
            _ = writeln!(stderr(), "{why}");
            ExitCode::FAILURE
        }
    }
}

/// Whoever closes the pipe has read enough; a full disk is told.
fn written(text: &[u8]) -> Result<(), String> {
    let mut out = stdout().lock();
    match out.write_all(text).and_then(|()| out.flush()) {
        Err(why) if why.kind() != ErrorKind::BrokenPipe => {
            Err(format!("the output could not be written: {why}"))
        }
        _ => Ok(()),
    }
}

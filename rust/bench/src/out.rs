//! What is printed. A run whose output cannot be written ends: quietly where whoever read it has closed the pipe,
//! else in words. It has not judged all its rows then, so its code is that of a failure.

use std::fmt::Arguments;
use std::io::{ErrorKind, Write, stderr, stdout};
use std::process::exit;

/// Prints a part of a line.
macro_rules! put {
    ($($text:tt)*) => { $crate::out::write(format_args!($($text)*)) };
}

/// Prints a line.
macro_rules! say {
    () => { $crate::out::write(format_args!("\n")) };
    ($($text:tt)*) => {{
        $crate::out::write(format_args!($($text)*));
        say!();
    }};
}

pub(crate) use {put, say};

pub fn write(text: Arguments) {
    if let Err(why) = stdout().write_fmt(text) {
        if why.kind() != ErrorKind::BrokenPipe {
            complain(format_args!("the output could not be written: {why}"));
        }
        exit(1);
    }
}

/// Where nobody reads that either, the code alone says it.
pub fn complain(text: Arguments) {
    _ = writeln!(stderr(), "{text}");
}

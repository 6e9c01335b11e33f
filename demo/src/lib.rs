//! Questions on a station's logs, as the commands ask them of the library.
//!
//! A question is answered whole, on standard output, or refused with a sentence on the error stream.

pub mod archive;
mod calendar;
mod colour;
mod columns;
mod deliveries;
mod draw;
mod file;
mod index;
pub mod live;
pub mod load;
mod log;
pub mod moment;
mod name;
mod named;
mod number;
mod program;
mod reading;
pub mod report;
pub mod rise;
mod text;
pub mod worst;

use std::env;
use std::ffi::OsString;
use std::fs::File;
use std::io::{self, ErrorKind, Write};
use std::os::fd::AsFd;
use std::process::ExitCode;

/// A command, from its arguments to its exit status. `answer` has none where they are as many as it does not take.
pub fn command(
    usage: &str,
    help: &str,
    answer: impl FnOnce(&[OsString]) -> Option<Result<String, String>>,
) -> ExitCode {
    let arguments: Vec<OsString> = env::args_os().skip(1).collect();
    let answer = match arguments.iter().any(|argument| argument == "-h" || argument == "--help") {
        true => Ok(format!("{usage}\n{help}")),
        false => answer(&arguments).unwrap_or_else(|| Err(usage.to_string())),
    };
    let told = answer.map_err(|why| format!("{why} Nothing was answered.")).and_then(|text| put(&text));
    match told {
        Ok(()) => ExitCode::SUCCESS,
        Err(why) => {
            // where this fails too, the status alone tells it
            writeln!(io::stderr(), "{why}").ok();
            ExitCode::FAILURE
        }
    }
}

/// Writes all of a text to standard output. A reader that closed it wants no more, and no message.
fn put(text: &str) -> Result<(), String> {
    // not by `Stdout`, which takes an output that can't be written to for one that was
    let out = io::stdout().as_fd().try_clone_to_owned().map(File::from);
    match out.and_then(|mut out| out.write_all(text.as_bytes())) {
        Err(why) if why.kind() != ErrorKind::BrokenPipe => {
            Err(format!("Standard output can't be written: {why}. What stands there is not the whole answer."))
        }
        _ => Ok(()),
    }
}

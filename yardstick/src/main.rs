//! `ixml-yardstick GRAMMAR RECORD` writes the XML of a record file.

use std::ffi::OsString;
use std::fs::File;
use std::io::{self, Read, Write};
use std::process::ExitCode;

use ixml_yardstick::{limits, program};

/// A file's content up to one byte over a limit, which is enough to see that
/// the file is longer. `None` if the file is not named or cannot be read.
fn contents(path: Option<OsString>, limit: usize) -> Option<Vec<u8>> {
    let mut bytes = Vec::new();
    let file = File::open(path?).ok()?;
    file.take(limit as u64 + 1).read_to_end(&mut bytes).ok()?;
    Some(bytes)
}

fn main() -> ExitCode {
    let mut arguments = std::env::args_os().skip(1);
    let grammar = contents(arguments.next(), limits::GRAMMAR_BYTES);
    let record = contents(arguments.next(), limits::PROGRAM_RECORD_BYTES);
    let output = program(grammar.as_deref(), record.as_deref());
    match io::stdout().write_all(&output) {
        Ok(()) => ExitCode::SUCCESS,
        Err(_) => ExitCode::FAILURE,
    }
}

//! Converts many records by one grammar, on all cores, and says of each what is
//! wrong and where. What is converted, checked, tidied and judged is the proved
//! library's answer; pictures, notes and second readings are this tool's own.

mod args;
mod batch;
mod convert;
mod diagnosis;
mod json;
mod place;
mod positions;
mod progress;
mod readings;
mod report;
mod single;
mod tree;
mod worker;

use std::io;
use std::process::ExitCode;
use std::thread;

use args::{Command, USAGE};

/// How a command ended. As a number it is the process's status.
#[derive(Clone, Copy, Debug, PartialEq, Eq, PartialOrd, Ord)]
pub enum Status {
    Well = 0,
    Refused = 1,
    Ambiguous = 3,
    Failed = 2,
}

/// A derivation may be thousands of nodes deep, and a tree is drawn by recursion.
const STACK: usize = 256 << 20;

fn main() -> ExitCode {
    let words = std::env::args_os().skip(1);
    let words: Vec<String> = words
        .map(|word| word.to_string_lossy().into_owned())
        .collect();
    let run = move || match args::command(words) {
        Ok(command) => run(command),
        Err(complaint) => {
            eprintln!("ixml-records: {complaint}; --help tells more");
            Ok(Status::Failed)
        }
    };
    let thread = thread::Builder::new().stack_size(STACK).spawn(run);
    let ended = thread.expect("a thread").join();
    let status = match ended {
        Ok(Ok(status)) => status,
        Ok(Err(error)) => {
            eprintln!("ixml-records: cannot write: {error}");
            Status::Failed
        }
        Err(panic) => std::panic::resume_unwind(panic),
    };
    ExitCode::from(status as u8)
}

/// The error is one of writing to standard output.
fn run(command: Command) -> io::Result<Status> {
    match command {
        Command::Help => single::say(USAGE),
        Command::Version => single::say(concat!("ixml-records ", env!("CARGO_PKG_VERSION"), "\n")),
        Command::Convert(wanted) => convert::convert(&wanted),
        Command::Check { grammar, table } => single::check(&grammar, table),
        Command::Tidy { check, grammars } => Ok(single::tidy(check, &grammars)),
        Command::Tree {
            svg,
            all,
            grammar,
            record,
        } => single::tree(&grammar, &record, svg, all),
        Command::Explain { grammar, record } => single::explain(&grammar, &record),
        Command::Judge {
            grammar,
            record,
            numbers,
        } => single::judge(&grammar, &record, &numbers),
        Command::Gate(asked) => positions::positions(asked),
    }
}

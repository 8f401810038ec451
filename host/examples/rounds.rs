//! Reads a record in rounds, tells of each, and gives up when its time is over.
//!
//!     cargo run --release --example rounds -- GRAMMAR RECORD [MILLISECONDS]
//!
//! GRAMMAR and RECORD are files. Standard error has a line for each round, standard
//! output the XML. The status is 1 where there is none, 3 where the read was given
//! up.

use std::process::ExitCode;
use std::time::{Duration, Instant};

use ixml::Rounds;

fn main() -> ExitCode {
    let words: Vec<String> = std::env::args().skip(1).collect();
    let (grammar, record, patience) = match words.as_slice() {
        [grammar, record] => (grammar, record, u64::MAX),
        [grammar, record, patience] => (grammar, record, patience.parse().unwrap_or(0)),
        _ => {
            eprintln!("usage: rounds GRAMMAR RECORD [MILLISECONDS]");
            return ExitCode::from(2);
        }
    };
    let (Ok(grammar), Ok(record)) = (std::fs::read(grammar), std::fs::read(record)) else {
        eprintln!("rounds: a file cannot be read");
        return ExitCode::from(2);
    };
    match read(&grammar, &record, Duration::from_millis(patience)) {
        Ok(Some(xml)) => {
            println!("{xml}");
            ExitCode::SUCCESS
        }
        Ok(None) => ExitCode::from(3),
        Err(error) => {
            eprintln!("{}", error.shown_in(&grammar));
            ExitCode::FAILURE
        }
    }
}

/// The XML, or nothing where the time is over first.
fn read(grammar: &[u8], record: &[u8], patience: Duration) -> Result<Option<String>, ixml::Error> {
    let begun = Instant::now();
    let mut rounds = Rounds::start(grammar, record)?;
    while let Some(round) = rounds.next() {
        eprintln!(
            "round {} of at most {}: {} found, {} in all",
            round.number, round.most, round.added, round.entered
        );
        // Here a program has a look at its buttons.
        if begun.elapsed() > patience && !rounds.is_finished() {
            return Ok(None);
        }
    }
    rounds.convert().map(|converted| Some(converted.xml))
}

//! Lines of standard input, each a record, to XML. Says where a record has its
//! fault, and shows both readings of one that has two.
//!
//!     cargo run --release --example lines -- GRAMMAR < RECORDS

use std::io::BufRead;
use std::process::ExitCode;

use ixml::{Error, Reader};

/// What is said of one record.
fn said(reader: &mut Reader, grammar: &[u8], record: &[u8]) -> Result<String, Error> {
    let converted = reader.convert(grammar, record)?;
    if !converted.ambiguous {
        return Ok(converted.xml);
    }
    let both = ixml::second_reading(grammar, record)?.expect("an ambiguous record has two");
    let (first, second) = (both.first.1.xml, both.second.1.xml);
    Ok(format!("either {first}\nor     {second}"))
}

fn main() -> ExitCode {
    let Some(grammar) = std::env::args().nth(1) else {
        eprintln!("lines: the file of a grammar is wanted");
        return ExitCode::from(2);
    };
    let grammar = match std::fs::read(&grammar) {
        Ok(grammar) => grammar,
        Err(error) => {
            eprintln!("lines: {grammar}: {error}");
            return ExitCode::from(2);
        }
    };
    let mut reader = Reader::new();
    let mut status = ExitCode::SUCCESS;
    for record in std::io::stdin().lock().split(b'\n') {
        let record = match record {
            Ok(record) => record,
            Err(error) => {
                eprintln!("lines: {error}");
                return ExitCode::from(2);
            }
        };
        match said(&mut reader, &grammar, &record) {
            Ok(text) => println!("{text}"),
            Err(error) => {
                eprintln!("{error}");
                status = ExitCode::FAILURE;
            }
        }
    }
    status
}

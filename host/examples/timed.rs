//! The time of one call of `read`, for host/peers/run.
//!
//!     cargo run --release --example timed -- GRAMMAR RECORD REPEATS
//!
//! GRAMMAR and RECORD are files. Prints the processor's time of a call in
//! milliseconds, the median of so many, then the grammar's size, the answer's
//! number and whether the record is ambiguous (1) or not (0).

#[path = "../tests/common/mod.rs"]
mod common;

use std::hint::black_box;
use std::process::ExitCode;

use common::{processor_time, size};
use ixml::limits::{main_table_for, GRAMMAR_TABLE, READING_NUMBERS};

fn main() -> ExitCode {
    let words: Vec<String> = std::env::args().skip(1).collect();
    let [grammar, record, repeats] = words.as_slice() else {
        eprintln!("usage: timed GRAMMAR RECORD REPEATS");
        return ExitCode::from(2);
    };
    let files = (std::fs::read(grammar), std::fs::read(record));
    let (Ok(grammar), Ok(record), Ok(repeats @ 1..)) = (files.0, files.1, repeats.parse()) else {
        eprintln!("timed: a file cannot be read, or the count is no number from 1 on");
        return ExitCode::from(2);
    };
    let mut main_table = vec![0; main_table_for(&record)];
    let mut grammar_table = vec![0; GRAMMAR_TABLE];
    let mut numbers = vec![0; READING_NUMBERS];
    let mut call = || {
        ixml::read(
            black_box(&grammar),
            black_box(&record),
            &mut main_table,
            &mut grammar_table,
            &mut numbers,
        )
    };
    let answer = call();
    let mut times: Vec<_> = (0..repeats)
        .map(|_: usize| {
            let start = processor_time();
            black_box(call());
            processor_time() - start
        })
        .collect();
    times.sort();
    println!(
        "{:.6} {} {} {}",
        times[repeats / 2].as_secs_f64() * 1000.0,
        size(&grammar).unwrap_or(0),
        answer.number,
        u8::from(answer.ambiguous)
    );
    ExitCode::SUCCESS
}

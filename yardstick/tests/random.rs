//! Made-up small jobs against the oracle.

mod oracle;

use std::collections::BTreeMap;

use ixml_yardstick::gen::{self, Job, Random, Style};
use ixml_yardstick::limits::{main_table, GRAMMAR_TABLE, READING_NUMBERS, RECORD_CHARACTERS};
use ixml_yardstick::{check, convert, plain, read, statics, syntax, Answer};
use oracle::Oracle;

const JOBS: usize = 30_000;
const LONGEST_RECORD: usize = 6;
const LARGEST_SIZE: usize = 80;

/// Reads and converts a job in ample room; the second answer's number tells
/// how it went.
fn compare(job: &Job) -> u32 {
    let grammar = job.grammar.as_bytes();
    let record = job.record.as_bytes();
    let checked = check(grammar);
    let mut numbers = [7; READING_NUMBERS];
    let mut bytes = vec![7; 1 << 20];
    let table = main_table(512, RECORD_CHARACTERS);
    let reading = read(grammar, record, table, GRAMMAR_TABLE, &mut numbers);
    let converted = convert(grammar, record, table, GRAMMAR_TABLE, &mut bytes);
    if checked.number == 0 || checked.number == 24 {
        let syntax = syntax::read(&job.grammar).unwrap();
        let unproductive = Oracle::new(&syntax, "").is_unproductive();
        assert_eq!(checked.number == 24, unproductive, "{job:?}");
    }
    if checked.number != 0 {
        assert_eq!(reading, checked, "{job:?}");
        assert_eq!(converted, checked, "{job:?}");
        return checked.number;
    }
    let version = checked.version;
    let refused = |number: u32| Answer {
        number,
        version: number == 16 && version,
        ..Answer::default()
    };
    let syntax = syntax::read(&job.grammar).unwrap();
    let oracle = Oracle::new(&syntax, &job.record);
    assert_eq!(statics::size(&syntax), oracle.size(), "{job:?}");
    assert_eq!(plain::plain(&syntax).size(), oracle.size(), "{job:?}");
    match oracle.outcome(READING_NUMBERS) {
        None => {
            // The oracle knows no longer texts: the place is held to the
            // vectors, and to the library's on made-up jobs.
            let mut expected = refused(16);
            expected.places.fault = reading.places.fault;
            assert!(reading.places.fault <= job.record.chars().count(), "{job:?}");
            assert_eq!(reading, expected, "{job:?}");
            assert_eq!(converted, expected, "{job:?}");
        }
        Some(None) => {
            assert_eq!(reading, refused(29), "{job:?}");
            assert_eq!(converted, refused(29), "{job:?}");
        }
        Some(Some(outcome)) => {
            let answered = |length: usize| Answer {
                number: 0,
                length,
                ambiguous: outcome.ambiguous,
                version,
                ..Answer::default()
            };
            assert_eq!(reading, answered(outcome.numbers.len()), "{job:?}");
            assert_eq!(numbers[..reading.length], outcome.numbers, "{job:?}");
            match outcome.xml {
                Err(number) => assert_eq!(converted, refused(number), "{job:?}"),
                // The oracle knows no versions.
                Ok(_) if version => assert_eq!(converted.number, 0, "{job:?}"),
                Ok(xml) => {
                    assert_eq!(converted, answered(xml.len()), "{job:?}");
                    let written = std::str::from_utf8(&bytes[..converted.length]);
                    assert_eq!(written, Ok(xml.as_str()), "{job:?}");
                }
            }
        }
    }
    converted.number
}

fn is_small(job: &Job) -> bool {
    syntax::read(&job.grammar).map_or(true, |syntax| statics::size(&syntax) <= LARGEST_SIZE)
}

#[test]
fn quick_answers_agree_with_the_definitions() {
    let mut random = Random::new(2023);
    let mut seen: BTreeMap<u32, usize> = BTreeMap::new();
    let mut ambiguous = 0;
    for style in Style::ALL.into_iter().cycle().take(JOBS) {
        let job = gen::job(&mut random, style, LONGEST_RECORD);
        if !is_small(&job) {
            continue;
        }
        let number = compare(&job);
        *seen.entry(number).or_default() += 1;
        let mut numbers = [0; READING_NUMBERS];
        let table = main_table(512, RECORD_CHARACTERS);
        let (grammar, record) = (job.grammar.as_bytes(), job.record.as_bytes());
        let reading = read(grammar, record, table, GRAMMAR_TABLE, &mut numbers);
        ambiguous += usize::from(reading.ambiguous);
    }
    println!("numbers {seen:?}, ambiguous {ambiguous}");
    for number in [0, 4, 5, 24, 16, 17, 18, 19, 20, 21, 22] {
        let count = seen.get(&number).copied().unwrap_or(0);
        assert!(count >= 5, "only {count} jobs with {number}");
    }
    assert!(ambiguous > JOBS / 20);
}

/// Records that are longer than one word of bits. Two symbols at most in each
/// alternative keep the oracle's lists of ways short.
#[test]
fn longer_records_agree_with_the_definitions() {
    let x = "x".repeat(66);
    let xy = "xy".repeat(33);
    let cases = [
        ("a: a, a; 'x'.", &x),
        ("a: a, b; b. b: 'x'; 'xx'.", &x),
        ("a: b, 'x'; 'x'. b: 'x', a.", &x),
        ("a: (['xy']; 'yx')*.", &xy),
        ("a: b, c. b: 'xy'*. c: ['xy']*.", &xy),
    ];
    for (grammar, record) in cases {
        for record in [&record[..], &record[1..]] {
            let number = compare(&Job {
                grammar: grammar.to_string(),
                record: record.to_string(),
            });
            assert!([0, 16].contains(&number));
        }
    }
}

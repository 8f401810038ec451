//! Short ways to run a job with ample room.
#![allow(dead_code)]

use ixml_yardstick::limits::{main_table, GRAMMAR_TABLE, RECORD_CHARACTERS};
use ixml_yardstick::{check, convert, read, Answer};

pub const STATE: &str = " xmlns:ixml='http://invisiblexml.org/NS' ixml:state=";

/// A main table that is long enough for every job.
pub fn ample() -> usize {
    main_table(512, RECORD_CHARACTERS)
}

pub fn check_number(grammar: impl AsRef<[u8]>) -> u32 {
    check(grammar.as_ref()).number
}

pub fn convert_answer(grammar: impl AsRef<[u8]>, record: impl AsRef<[u8]>) -> Answer {
    let mut result = vec![0; 1 << 20];
    convert(
        grammar.as_ref(),
        record.as_ref(),
        ample(),
        GRAMMAR_TABLE,
        &mut result,
    )
}

pub fn read_answer(grammar: impl AsRef<[u8]>, record: impl AsRef<[u8]>) -> Answer {
    let mut result = vec![0; 4096];
    read(
        grammar.as_ref(),
        record.as_ref(),
        ample(),
        GRAMMAR_TABLE,
        &mut result,
    )
}

/// The XML, or `refused` and the number.
pub fn xml(grammar: impl AsRef<[u8]>, record: impl AsRef<[u8]>) -> String {
    let mut result = vec![0; 1 << 20];
    let answer = convert(
        grammar.as_ref(),
        record.as_ref(),
        ample(),
        GRAMMAR_TABLE,
        &mut result,
    );
    match answer.number {
        0 => String::from_utf8(result[..answer.length].to_vec()).unwrap(),
        number => format!("refused {number}"),
    }
}

/// The reading's numbers with spaces between and `ambiguous` behind them if
/// they are, or `refused` and the number.
pub fn reading(grammar: impl AsRef<[u8]>, record: impl AsRef<[u8]>) -> String {
    let mut result = vec![0; 4096];
    let answer = read(
        grammar.as_ref(),
        record.as_ref(),
        ample(),
        GRAMMAR_TABLE,
        &mut result,
    );
    if answer.number != 0 {
        return format!("refused {}", answer.number);
    }
    let mut words: Vec<String> = result[..answer.length].iter().map(u32::to_string).collect();
    if answer.ambiguous {
        words.push("ambiguous".to_string());
    }
    words.join(" ")
}

/// Grammar, record and what `answer` gives for them.
pub type Case<'a> = (&'a str, &'a str, &'a str);

#[track_caller]
pub fn assert_xml(cases: &[Case]) {
    for (grammar, record, expected) in cases {
        assert_eq!(xml(grammar, record), *expected, "{grammar} | {record}");
    }
}

#[track_caller]
pub fn assert_reading(cases: &[Case]) {
    for (grammar, record, expected) in cases {
        assert_eq!(reading(grammar, record), *expected, "{grammar} | {record}");
    }
}

#[track_caller]
pub fn assert_check(cases: &[(&str, u32)]) {
    for (grammar, number) in cases {
        assert_eq!(check_number(grammar), *number, "{grammar}");
    }
}

/// Rules `n0` to `n<last>`, each but the last deriving the next twice, behind
/// a chain of `unary` rules. The last derives nothing but the empty span.
pub fn doublings(mark: &str, unary: usize, last: usize) -> String {
    let mut grammar = String::new();
    for rule in 0..unary {
        let next = if rule + 1 < unary {
            format!("u{}", rule + 1)
        } else {
            "n0".to_string()
        };
        grammar.push_str(&format!("u{rule}: {next}. "));
    }
    for rule in 0..last {
        grammar.push_str(&format!("n{rule}: n{0}, n{0}. ", rule + 1));
    }
    format!("{mark}{grammar}n{last}: .")
}

/// The complete grammar of the specification.
pub const IXML: &str = include_str!("../../../tests/grammars/ixml.ixml");

//! Judging lists of numbers, whoever made them.

mod common;

use common::vectors;
use ixml::limits::GRAMMAR_TABLE;
use ixml::{second_reading, Error, Reader};

/// The answer's number and the XML of a list, with all room.
fn judge(grammar: &[u8], record: &[u8], list: &[u32]) -> (u32, Vec<u8>) {
    let table = vec![0; GRAMMAR_TABLE];
    let mut scratch = vec![0; 2 * list.len()];
    let mut result = vec![0; 1 << 20];
    let answer = ixml::judge(grammar, record, list, &table, &mut scratch, &mut result);
    assert!(!answer.ambiguous);
    (answer.number, result[..answer.length].to_vec())
}

/// The lines for judging are run as any other call's by the tool, tests/tool.rs;
/// here against the yardstick, with numbers that are off by a little and by far.
#[test]
fn lists_that_are_off() {
    let mut refused = 0;
    for vector in vectors::lines_of("judge", 7) {
        let fields: Vec<&str> = vector.0.split('\t').collect();
        let (grammar, record) = (vectors::bytes(fields[1]), vectors::bytes(fields[2]));
        let list: Vec<u32> = match fields[3] {
            "-" => Vec::new(),
            numbers => numbers.split(',').map(|n| n.parse().unwrap()).collect(),
        };
        let mut lists = vec![list.clone()];
        for place in 0..list.len().min(12) {
            for number in [0, 1, 255, 256, 511, 512, 65_536, 1 << 31, u32::MAX] {
                let mut other = list.clone();
                other[place] = number;
                lists.push(other);
            }
            let mut longer = list.clone();
            longer.insert(place, 0);
            lists.push(longer);
            lists.push(list[..place].to_vec());
        }
        for list in lists {
            let mut result = vec![0; 1 << 20];
            let (table, scratch) = (GRAMMAR_TABLE, 2 * list.len());
            let expected =
                ixml_yardstick::judge(&grammar, &record, &list, table, scratch, &mut result);
            let (number, xml) = judge(&grammar, &record, &list);
            assert_eq!(number, expected.number, "{} {list:?}", vector.0);
            assert_eq!(xml, result[..expected.length], "{} {list:?}", vector.0);
            refused += u32::from(number == 25);
        }
    }
    assert!(refused > 10_000, "{refused}");
}

/// What reading answers is accepted, and converting's XML is that of judging, but
/// for the word; where the record is ambiguous a second derivation is found, and
/// accepted too.
#[test]
fn what_reading_answers() {
    let (mut read, mut twice) = (0, 0);
    for vector in vectors::of("read") {
        let (grammar, record) = (&vector.job.grammar, &vector.job.record);
        let Ok(reading) = Reader::new().read(grammar, record) else {
            continue;
        };
        read += 1;
        let judged = Reader::new().judge(grammar, record, &reading.numbers);
        match (Reader::new().convert(grammar, record), &judged) {
            (Ok(converted), Ok(judged)) => {
                let without = converted.xml.replacen("'ambiguous version", "'version", 1);
                let state = " xmlns:ixml='http://invisiblexml.org/NS' ixml:state='ambiguous'";
                let without = without.replacen(state, "", 1);
                let expected = if converted.ambiguous {
                    &without
                } else {
                    &converted.xml
                };
                assert_eq!(&judged.xml, expected, "{}", vector.input);
                assert!(!judged.ambiguous);
            }
            (converted, judged) => assert_eq!(converted.as_ref().err(), judged.as_ref().err()),
        }
        match second_reading(grammar, record) {
            Ok(None) => assert!(!reading.ambiguous, "{}", vector.input),
            Ok(Some(both)) => {
                assert!(reading.ambiguous, "{}", vector.input);
                assert_eq!(both.first.0, reading.numbers);
                assert_ne!(both.first.0, both.second.0);
                twice += 1;
            }
            Err(error) => assert!((17..=22).contains(&error.number()), "{}", vector.input),
        }
    }
    assert!(read > 1000 && twice > 100, "{read} {twice}");
}

/// `a: a; "x".` has derivations of every length.
#[test]
fn long_lists() {
    let unary = |depth: usize| {
        let mut list = vec![0; depth];
        list.push(1);
        list
    };
    assert_eq!(judge(b"a: -a; 'x'.", b"x", &unary(1_000_000)).0, 0);
    assert_eq!(
        judge(b"a: -a; 'x'.", b"x", &unary(1_000_000)).1,
        b"<a>x</a>"
    );
    assert_eq!(judge(b"a: -a; 'x'.", b"x", &vec![0; 1_000_000]).0, 25);
    let mut wide = vec![0; 1_000_000];
    wide.extend(vec![1; 1_000_001]);
    assert_eq!(judge(b"a: -a, -a; .", b"", &wide).1, b"<a/>");
    assert_eq!(judge(b"a: -a; 'x'.", b"x", &[]).0, 25);
}

#[test]
fn rooms() {
    let (grammar, record, list) = (b"a: 'x'.", b"x", [0]);
    let answer = |table: usize, scratch: usize, room: usize, list: &[u32]| {
        let table = vec![0; table];
        let (mut scratch, mut result) = (vec![7; scratch], vec![9; room]);
        let answer = ixml::judge(grammar, record, list, &table, &mut scratch, &mut result);
        if answer.number > 0 {
            assert_eq!(result, vec![9; room]);
        }
        answer.number
    };
    assert_eq!(answer(GRAMMAR_TABLE, 2, 8, &list), 0);
    assert_eq!(answer(GRAMMAR_TABLE, 2, 7, &list), 23);
    assert_eq!(answer(GRAMMAR_TABLE, 1, 8, &list), 15);
    assert_eq!(answer(GRAMMAR_TABLE - 1, 2, 8, &list), 15);
    // 15 before 25, and 25 before 23.
    assert_eq!(answer(GRAMMAR_TABLE, 3, 8, &[9, 9]), 15);
    assert_eq!(answer(GRAMMAR_TABLE, 4, 0, &[9, 9]), 25);
    assert_eq!(
        Reader::new().judge("a: 'x'.", "x", &[1]),
        Err(Error::NoDerivation)
    );
}

//! What the crate adds to the library's calls.

mod common;

use common::jobs;
use ixml::limits::{main_table, main_table_for, MAIN_TABLE, RECORD_CHARACTERS};
use ixml::{check, Answer, Error, Reader};

#[test]
fn every_refusal_has_its_number_and_a_sentence_of_its_own() {
    let mut sentences = std::collections::BTreeSet::new();
    for number in 1..=29 {
        let answer = Answer {
            number,
            ..Answer::default()
        };
        let error = answer.ok().expect_err("a refusal");
        assert_eq!(error.number(), number);
        assert!(sentences.insert(error.sentence()));
        let byte = error.byte().map(|byte| format!(", at byte {byte}"));
        assert_eq!(byte.is_some(), [2, 3, 12, 13].contains(&number));
        let place = error.place().map(|place| format!(", at character {place}"));
        assert_eq!(place.is_some(), (5..=10).contains(&number));
        let fault = (number == 16).then(|| String::from(", after 0 characters"));
        let place = place.or(fault);
        assert_eq!(
            error.to_string(),
            format!(
                "refused {number}: {}{}",
                error.sentence(),
                byte.or(place).unwrap_or_default()
            )
        );
    }
    assert_eq!(sentences.len(), 29);
    assert_eq!(Answer::default().ok(), Ok(Answer::default()));
}

#[test]
fn no_reading_tells_of_another_version() {
    for version in [false, true] {
        let answer = Answer {
            number: 16,
            version,
            ..Answer::default()
        };
        let version_mismatch = version;
        let place = 0;
        assert_eq!(
            answer.ok(),
            Err(Error::NoReading {
                version_mismatch,
                place
            })
        );
    }
}

#[test]
fn table_lengths() {
    assert_eq!(MAIN_TABLE, 10_394_112);
    assert_eq!(main_table(6, 0), 6);
    assert_eq!(main_table(2, 1), 6);
    assert_eq!(main_table(usize::MAX, usize::MAX), MAIN_TABLE);
    assert_eq!(main_table_for(b""), 512);
    assert_eq!(
        main_table_for("é".repeat(RECORD_CHARACTERS).as_bytes()),
        MAIN_TABLE
    );
    assert_eq!(main_table_for(&[b'x'; 100_000]), MAIN_TABLE);
    assert_eq!(main_table_for(&[0x80; 100_000]), 512);
}

#[test]
fn checking_marks_another_version() {
    assert_eq!(
        check(b"ixml version \"1.0\". a: .").ok(),
        Ok(Answer::default())
    );
    assert!(check(b"ixml version \"1.1\". a: .").version);
}

#[test]
fn a_reader_reads_jobs_of_all_lengths() {
    let mut reader = Reader::new();
    for record in ["xx", "", &"x".repeat(RECORD_CHARACTERS), "x"] {
        let reading = reader.read("a: 'x'*.", record).expect("a reading");
        assert_eq!(reading.numbers.len(), record.len() + 2);
        assert!(!reading.ambiguous && !reading.version_mismatch);
    }
    let refusals = [
        ("a: b.", "", Error::UndefinedName { place: 3 }),
        (
            "a: 'x'.",
            &"x".repeat(RECORD_CHARACTERS + 1),
            Error::RecordTooLong,
        ),
    ];
    for (grammar, record, refusal) in refusals {
        assert_eq!(reader.read(grammar, record), Err(refusal));
    }
    let broken = reader.read("a: 'x'.", b"x\xE2\x82").expect_err("a refusal");
    assert_eq!(
        broken.to_string(),
        "refused 12: the record is not UTF-8, at byte 1 (E2 82)"
    );
    let outside = reader.read("a: 'x'.", "x\u{180}y").expect_err("a refusal");
    assert_eq!((outside.number(), outside.byte()), (13, Some(1)));
    assert!(outside.to_string().ends_with(", at byte 1 (C6 80)"));
    let no_reading = reader.read("ixml version '2'. a: 'x'.", "y");
    let version_mismatch = true;
    let place = 0;
    assert_eq!(
        no_reading,
        Err(Error::NoReading {
            version_mismatch,
            place
        })
    );
    let reading = reader.read("a: 'x'; 'x'.", "x").expect("a reading");
    assert!(reading.ambiguous);
    let long = jobs::doublings("", 12);
    assert_eq!(reader.read(long.grammar, ""), Err(Error::ReadingTooLong));
}

#[test]
fn a_reader_converts_jobs_of_all_lengths() {
    let mut reader = Reader::new();
    let converted = reader
        .convert("ixml version '2'. a: 'x'; 'x'.", "x")
        .expect("XML");
    let state = "xmlns:ixml='http://invisiblexml.org/NS' ixml:state='ambiguous version-mismatch'";
    assert_eq!(converted.xml, format!("<a {state}>x</a>"));
    assert!(converted.ambiguous && converted.version_mismatch);
    assert_eq!(reader.convert("-a: 'x'.", "x"), Err(Error::DeletedRoot));
    // A name of 1,000 letters on 1,920 elements.
    let name = "n".repeat(1000);
    let uses = |count: usize, name: &str| vec![name; count].join(",");
    let (a, b, c) = (uses(15, "b"), uses(16, "c"), uses(8, "d"));
    let grammar = format!("a: {a} . b: {b} . c: {c} . -d: {name} . {name}: .");
    let converted = reader.convert(&grammar, "").expect("XML");
    assert!(converted.xml.len() > 1_920_000);
    let mut expected = vec![0; 10_000_000];
    let answer =
        ixml_yardstick::convert(grammar.as_bytes(), b"", MAIN_TABLE, 16_384, &mut expected);
    assert_eq!(converted.xml.as_bytes(), &expected[..answer.length]);
    assert_eq!(
        reader.convert("a: .", "").map(|converted| converted.xml),
        Ok("<a/>".to_string())
    );
}

#[test]
fn refusals_show_where_the_grammar_is_at_fault() {
    let cases = [
        // The name, not its mark; the byte order mark is no column.
        ("\u{FEFF}a: - b.", "line 1, column 6\na: - b.\n     ^"),
        // The first rule's name that an earlier rule has.
        (
            "a: b.\r\nb: 'x'. c: 'y'. c: 'z'. b: 'w'.",
            "line 2, column 17\nb: 'x'. c: 'y'. c: 'z'. b: 'w'.\n                ^",
        ),
        // A range's second end; a tab stays a tab, a combining mark has no width.
        (
            "a: 'e\u{301}',\t['a'-#110000].",
            "line 1, column 15\na: 'e\u{301}',\t['a'-#110000].\n       \t     ^",
        ),
        (
            "a: ['b'-'a'; Xx].",
            "line 1, column 5\na: ['b'-'a'; Xx].\n    ^",
        ),
        ("a: [Xx].\n", "line 1, column 5\na: [Xx].\n    ^"),
    ];
    for (grammar, shown) in cases {
        let error = check(grammar.as_bytes()).ok().expect_err("a refusal");
        let text = error.shown_in(grammar);
        assert!(text.ends_with(&format!(", at {shown}")), "{text}");
    }
}

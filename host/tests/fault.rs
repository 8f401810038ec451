//! The place of the fault in a record, and how the host shows it.

use ixml::{Engine, Error, Reader};

/// The place that both engines and converting give with 16.
fn place(grammar: &str, record: &str) -> usize {
    let places = [
        Reader::new().read(grammar, record).map(|_| ()),
        Reader::with(Engine::Plain)
            .read(grammar, record)
            .map(|_| ()),
        Reader::new().convert(grammar, record).map(|_| ()),
    ]
    .map(|outcome| match outcome {
        Err(Error::NoReading { place, .. }) => place,
        outcome => panic!("{grammar} | {record}: {outcome:?}"),
    });
    assert!(places.iter().all(|&place| place == places[0]));
    places[0]
}

#[test]
fn places() {
    let cases = [
        ("a: 'x'; 'xyz'.", "xyq", 2),
        ("a: 'x'; 'y', [].", "y", 0),
        ("a: 'x'.", "", 0),
        ("a: 'x'.", "xx", 1),
        ("a: b, ';'. b: 'x'+.", "xx", 2),
        ("a: b, ';'. b: 'x'+.", "xx.", 2),
        ("a: 'é', 'ö'.", "éé", 1),
        ("a: b; c. b: 'x', 'y'; 'x', 'z', []. c: 'x', 'w'.", "xz", 1),
        ("a: a, 'x'; 'y'.", "yxxz", 3),
        ("a: 'x', a; .", "xxxy", 3),
    ];
    for (grammar, record, expected) in cases {
        assert_eq!(place(grammar, record), expected, "{grammar} | {record}");
    }
    let long = "x".repeat(200);
    assert_eq!(place("a: 'x'*, 'y'.", &long), 200);
    assert_eq!(place("a: 'x'*.", &format!("{}y", &long[1..])), 199);
}

#[test]
fn the_fault_is_shown() {
    let mut reader = Reader::new();
    let mut show =
        |grammar: &str, record: &str| reader.fault(grammar, record).map(|f| f.to_string());
    assert_eq!(show("a: 'x'.", "x"), None);
    assert_eq!(show("a: b.", "x"), None);
    assert_eq!(
        show("a: 'x'; 'xyz'.", "xyq").as_deref(),
        Some("xyq\n  ^\nexpected: z")
    );
    assert_eq!(
        show("a: 'x'.", "xx").as_deref(),
        Some("xx\n ^\nexpected: the end")
    );
    assert_eq!(
        show("a: ~[#a]*, #a, 'é', ['0'-'2'; ' '].", "x\ty\néz").as_deref(),
        Some("éz\n ^\nexpected: #20 0 1 2")
    );
    let long = "x".repeat(200);
    let text = show("a: 'x'*, 'y'.", &long).expect("a fault");
    assert!(text.ends_with("^\nexpected: it cannot be told after 200 characters"));
}

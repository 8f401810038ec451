//! Cases of the requests that no vector names by itself.

mod common;

use common::{assert_check, assert_reading};
use ixml_yardstick::cut::{rounds, start, Lent, Progress, State};
use ixml_yardstick::limits::GRAMMAR_TABLE;

/// T-06: every rule counts, used or not, written or made.
#[test]
fn rules_that_derive_nothing() {
    assert_check(&[
        ("a: \"x\", a.", 24),
        ("a: \"x\". b: b.", 24),
        ("a: []**\"x\".", 24),
        ("a: \"x\"; (#180).", 24),
        ("a: ~[L; M; N; P; S; Z; C].", 24),
        ("a: ~[#0-#17f; #300-#36f; #203f-#2040].", 24),
        ("a: ~[#0-#17f; #300-#36f; #203f].", 0),
        ("a: [Cs].", 24),
        ("a: [#180-#2ff].", 24),
        ("a: [#180-#300].", 0),
        ("a: \"x\"; #180.", 0),
        ("a: []*.", 0),
        ("a: +#10fffd.", 0),
        ("a: b. b: c. c: d. d: a; .", 0),
        ("a: b. b: c. c: d. d: a.", 24),
        ("a: b, b. b: a; b, c. c: \"x\".", 24),
    ]);
}

/// 24 comes after 11 and before 12.
#[test]
fn between_11_and_12() {
    let large = format!("a: {}a.", "\"x\", ".repeat(512));
    assert_check(&[(&large, 11), ("a: [Xx], a.", 10)]);
    assert_reading(&[("a: a.", "\u{180}", "refused 24")]);
}

/// T-10: refusals 5 to 10 name the first place at fault, in characters after a
/// byte order mark.
#[test]
fn places_in_a_grammar() {
    let cases = [
        ("a: - b.", 5, 5),
        ("a: b. b: 'x'. c: 'y'. c: 'z'. b: 'w'.", 6, 22),
        ("a: ['a'-#110000].", 7, 8),
        ("a: ['é'; #ffff].", 8, 9),
        ("a: ['b'-'a'].", 9, 4),
        ("a: 'x', {x} [L; Xx].", 10, 16),
        ("a: [Xx], b.", 5, 9),
    ];
    for (grammar, number, place) in cases {
        for (front, moved) in [("", 0), ("\u{FEFF}", 0), ("{é} ", 4)] {
            let answer = ixml_yardstick::check(format!("{front}{grammar}").as_bytes());
            assert_eq!(answer.number, number, "{grammar}");
            assert_eq!(answer.places.grammar, place + moved, "{grammar}");
        }
    }
    assert_eq!(ixml_yardstick::check(b"a: a.").places, Default::default());
}

/// T-12: rules written and made, the rounds until finished, and what each finds.
#[test]
fn rounds_of_a_read() {
    let cases = [
        ("a: \"x\"*, \"x\"*.", "", (3, 3, vec![0, 2, 3, 3])),
        ("a: b. b: .", "", (2, 2, vec![0, 1, 2])),
        ("a: ; a.", "", (1, 1, vec![0, 1])),
        ("a: \"x\".", "y", (1, 1, vec![0, 0])),
        ("a: \"x\".", "x", (1, 2, vec![0, 1, 1])),
    ];
    for (grammar, record, expected) in cases {
        let got = rounds(grammar.as_bytes(), record.as_bytes());
        assert_eq!(got, Ok(expected), "{grammar} | {record}");
    }
    assert_eq!(
        rounds(b"a: b.", b"").map_err(|answer| answer.number),
        Err(5)
    );
}

/// 27, then 15, then 26; the count of rounds is 0 with the first two.
#[test]
fn refusals_of_a_read_in_rounds() {
    let lent = Lent {
        grammar: b"a: b. b: 'x'.",
        record: b"x",
        main_table: 12,
        grammar_table: GRAMMAR_TABLE,
    };
    let other = Lent {
        record: b"y",
        main_table: 0,
        ..lent
    };
    let short = Lent {
        main_table: 11,
        ..lent
    };
    let (_, mut state) = start(lent);
    let end = |state: &State, lent| {
        let Progress { answer, rounds } = state.finish_read(lent, &mut [0; 9]);
        (answer.number, rounds)
    };
    state.round(lent);
    assert_eq!(end(&state, other), (27, 0));
    assert_eq!(end(&state, short), (15, 0));
    assert_eq!(end(&state, lent), (26, 1));
    state.round(lent);
    assert_eq!(end(&state, lent), (26, 2));
    state.round(lent);
    state.round(lent);
    assert_eq!(end(&state, lent), (0, 3));
    assert_eq!(end(&start(short).1, lent), (27, 0));
    assert_eq!(end(&State::default(), lent), (27, 0));
}

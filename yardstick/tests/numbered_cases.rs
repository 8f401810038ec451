//! The fourteen numbered cases of the rules.

mod common;

use common::{assert_check, assert_reading, assert_xml, reading, xml, STATE};
use ixml_yardstick::limits::RECORD_CHARACTERS;

#[test]
fn case_01_and_02() {
    assert_reading(&[("a: \"x\".", "x", "0"), ("a: \"x\".", "", "refused 16")]);
    assert_xml(&[
        ("a: \"x\".", "x", "<a>x</a>"),
        ("a: \"x\".", "", "refused 16"),
    ]);
}

#[test]
fn case_03_and_04() {
    assert_reading(&[("a: \"x\"*.", "", "0 1"), ("a: \"x\"*.", "xx", "0 0 0 1")]);
    assert_xml(&[
        ("a: \"x\"*.", "", "<a/>"),
        ("a: \"x\"*.", "xx", "<a>xx</a>"),
    ]);
}

#[test]
fn case_05() {
    let grammar = "a: \"x\"; \"x\".";
    assert_eq!(reading(grammar, "x"), "0 ambiguous");
    assert_eq!(xml(grammar, "x"), format!("<a{STATE}'ambiguous'>x</a>"));
}

#[test]
fn case_06_and_07() {
    assert_reading(&[
        ("a: a; \"x\".", "x", "1 ambiguous"),
        ("a: (\"x\"?)*.", "", "0 1 ambiguous"),
    ]);
}

#[test]
fn case_08() {
    assert_xml(&[("a: +\"z\".", "", "<a>z</a>")]);
}

#[test]
fn case_09() {
    let rest = "lat: d+. lon: d+. -d: [\"0\"-\"9\"].";
    let grammar = format!("p: @lat, -\" \", @lon. {rest}");
    assert_eq!(reading(&grammar, "45 12"), "0 0 0 0 0 0 1 0 0 0 0 0 1");
    assert_eq!(xml(&grammar, "45 12"), "<p lat='45' lon='12'/>");
    let grammar = format!("p: (@lat, -\" \", @lon; @lon, -\" \", @lat). {rest}");
    let expected = format!("<p{STATE}'ambiguous' lat='45' lon='12'/>");
    assert_eq!(xml(&grammar, "45 12"), expected);
}

#[test]
fn case_10() {
    let expected = "<expr open='(' sign='+' close=')'><left name='a'/><right>1</right></expr>";
    let grammar = r#"
        expr: open, -arith, @close, -";".
        @open: "(".
        close: ")".
        arith: left, op, ^right.
        left: operand.
        -right: operand.
        -operand: name; -number.
        @name: ["a"-"z"].
        @number: ["0"-"9"].
        -op: sign.
        @sign: "+"; "-".
    "#;
    assert_eq!(xml(grammar, "(a+1);"), expected);
}

#[test]
fn case_11() {
    assert_check(&[
        ("a: \"\".", 4),
        ("a: \"x\".b: \"y\".", 4),
        ("a: b.", 5),
        ("a: \"x\". a: \"y\".", 6),
        ("a: #110000.", 7),
        ("a: #10ffff.", 8),
        ("a: [\"b\"-\"a\"].", 9),
        ("a: [Xx].", 10),
        ("a: #10fffd.", 24),
    ]);
}

#[test]
fn case_12() {
    assert_xml(&[
        ("-a: \"x\".", "x", "refused 21"),
        ("@a: \"x\".", "x", "refused 20"),
        ("-a: b. b: \"x\".", "x", "<b>x</b>"),
        ("a: @b, @b. b: \"x\".", "xx", "refused 17"),
        ("\u{AA}: \"x\".", "x", "refused 18"),
    ]);
}

#[test]
fn case_13() {
    assert_xml(&[("a: b.. b.: \"x\".", "x", "<a><b.>x</b.></a>")]);
}

#[test]
fn case_14() {
    let grammar = "a: ~[]*.";
    assert_eq!(xml(grammar, "<&>"), "<a>&lt;&amp;&gt;</a>");
    let longest = "x".repeat(RECORD_CHARACTERS);
    assert_eq!(xml(grammar, &longest), format!("<a>{longest}</a>"));
    assert_eq!(
        xml(grammar, "x".repeat(RECORD_CHARACTERS + 1)),
        "refused 14"
    );
}

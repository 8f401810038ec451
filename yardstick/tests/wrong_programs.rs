//! One test for each of the wrong programs B.1 to B.39: it fails on them.

mod common;

use common::{
    ample, assert_check, assert_reading, assert_xml, check_number, convert_answer, doublings,
    read_answer, reading, xml, STATE,
};
use ixml_yardstick::limits::{GRAMMAR_TABLE, RECORD_CHARACTERS};
use ixml_yardstick::{category, check, convert, read, Answer};

#[test]
fn b01_fills_the_buffer_behind_the_result() {
    let mut buffer = [9; 12];
    let answer = convert(b"a: \"x\".", b"x", ample(), GRAMMAR_TABLE, &mut buffer);
    assert_eq!(answer.length, 8);
    assert_eq!(&buffer, b"<a>x</a>\x09\x09\x09\x09");
    let mut buffer = [9; 6];
    read(b"a: \"x\"*.", b"xx", ample(), GRAMMAR_TABLE, &mut buffer);
    assert_eq!(buffer, [0, 0, 0, 1, 9, 9]);
}

#[test]
fn b02_writes_and_then_refuses() {
    for (grammar, record) in [
        ("a: \"x\", +#1.", "x"),
        ("a: @b, \"y\", @b. b: \"x\".", "xyx"),
        ("a: \"xxxxxxxxxxxxxx\".", "xxxxxxxxxxxxxx"),
    ] {
        let mut buffer = [9; 10];
        let (grammar, record) = (grammar.as_bytes(), record.as_bytes());
        let answer = convert(grammar, record, ample(), GRAMMAR_TABLE, &mut buffer);
        assert!([17, 19, 23].contains(&answer.number));
        assert_eq!(buffer, [9; 10]);
    }
    let mut buffer = [9; 3];
    let answer = read(b"a: \"x\"*.", b"xx", ample(), GRAMMAR_TABLE, &mut buffer);
    assert_eq!((answer.number, buffer), (23, [9; 3]));
}

fn refused(number: u32) -> Answer {
    Answer {
        number,
        ..Answer::default()
    }
}

#[test]
fn b03_leaves_the_ambiguous_mark_with_21() {
    assert_eq!(convert_answer("-a: \"x\"; \"x\".", "x"), refused(21));
}

#[test]
fn b04_sets_the_version_mark_with_23() {
    let grammar = b"ixml version \"2\". a: \"x\".";
    let answer = convert(grammar, b"x", ample(), GRAMMAR_TABLE, &mut [0; 5]);
    assert_eq!(answer, refused(23));
}

#[test]
fn b05_gives_the_size_as_the_length_of_checking() {
    assert_eq!(check(b"a: \"x\"."), Answer::default());
}

#[test]
fn b06_always_answers_15() {
    assert_eq!(reading("a: \"x\".", "x"), "0");
}

#[test]
fn b07_demands_a_square_table() {
    let answer = read(b"a: \"x\".", b"x", 6, GRAMMAR_TABLE, &mut [0]);
    assert_eq!(answer.number, 0);
}

/// Only the lengths of tables are passed; answers cannot depend on what an
/// earlier job left behind.
#[test]
fn b08_trusts_what_a_table_held() {
    let first = reading("a: a, a; \"x\"; .", "xxxx");
    reading("a: ~[]*.", "yyyyyyyy");
    assert_eq!(reading("a: a, a; \"x\"; .", "xxxx"), first);
}

#[test]
fn b09_judges_tables_before_texts() {
    assert_eq!(read(b"a: b.", b"", 0, 0, &mut []).number, 5);
    assert_eq!(read(b"a: \"x\".", b"\xFF", 0, 0, &mut []).number, 12);
}

#[test]
fn b10_judges_the_alphabet_before_utf8() {
    assert_eq!(convert_answer("a: .", b"\xE2\x82\xAC\xFF").number, 12);
    assert_eq!(check_number(b"\xE2\x82\xAC\xFF"), 2);
}

#[test]
fn b11_accepts_bad_utf8() {
    let bad: [&[u8]; 9] = [
        b"\xC0\x80",
        b"\xC1\xBF",
        b"\xE0\x80\x80",
        b"\xED\xA0\x80",
        b"\xF0\x80\x80\x80",
        b"\xF4\x90\x80\x80",
        b"\x80",
        b"\xE2\x82",
        b"\xF5\x80\x80\x80",
    ];
    for bytes in bad {
        assert_eq!(check_number(bytes), 2);
        assert_eq!(convert_answer("a: ~[]*.", bytes).number, 12);
    }
    assert_eq!(convert_answer("a: ~[]*.", b"\xF4\x8F\xBF\xBF").number, 13);
}

#[test]
fn b12_wraps_hex_numbers() {
    assert_check(&[
        ("a: #10000000000000041.", 7),
        ("a: #100000041.", 7),
        ("a: #110041.", 7),
        ("a: #00000000000000000000041.", 0),
    ]);
}

#[test]
fn b13_knows_few_noncharacters() {
    assert_check(&[
        ("a: #fdd0.", 8),
        ("a: #fdef.", 8),
        ("a: #1fffe.", 8),
        ("a: #fdf0.", 24),
        ("a: +#fdf0.", 0),
    ]);
}

/// The oracle of the random tests has no chart; here both are held against
/// numbers worked out by hand.
#[test]
fn b14_defines_derivations_by_its_own_engine() {
    assert_reading(&[
        ("s: s, s; \"x\"; .", "", "2 ambiguous"),
        ("s: s, s; \"x\"; .", "x", "1 ambiguous"),
        ("s: s, s; \"x\"; .", "xx", "0 1 1 ambiguous"),
        (
            "s: a, b; b, a. a: \"x\"; . b: \"x\"; .",
            "x",
            "0 1 0 ambiguous",
        ),
        ("s: \"x\", s, \"x\"; \"x\".", "xxxxx", "0 0 1"),
    ]);
}

#[test]
fn b15_stops_after_as_many_rounds_as_characters() {
    let mut grammar: String = (0..200).map(|n| format!("r{n}: r{}. ", n + 1)).collect();
    grammar.push_str("r200: \"x\".");
    assert_eq!(reading(grammar, "x"), vec!["0"; 201].join(" "));
}

#[test]
fn b16_minimises_the_height_only_at_the_root() {
    let grammar = "a: b, c. b: d. d: e. e: \"x\". c: f; \"y\". f: \"y\".";
    assert_reading(&[(grammar, "xy", "0 0 0 0 1 ambiguous")]);
}

#[test]
fn b17_takes_the_first_alternative_before_the_height() {
    assert_reading(&[("a: b; \"x\". b: \"x\".", "x", "1 ambiguous")]);
}

#[test]
fn b18_takes_the_longest_child() {
    assert_reading(&[("a: \"x\"?, \"x\"?.", "x", "0 1 0 ambiguous")]);
}

#[test]
fn b19_counts_only_ways_of_least_height() {
    assert_reading(&[("a: a; \"x\".", "x", "1 ambiguous")]);
}

#[test]
fn b20_looks_for_ambiguity_in_the_wrong_cells() {
    assert_reading(&[
        (
            "a: \"xy\"; b, \"z\". b: \"x\", c. c: \"y\"; \"y\".",
            "xy",
            "0",
        ),
        ("a: b. b: c. c: \"x\"; \"x\".", "x", "0 0 0 ambiguous"),
    ]);
}

#[test]
fn b21_counts_alternatives_and_not_ends() {
    assert_reading(&[("a: b, b. b: \"x\"*.", "x", "0 0 1 0 0 1 ambiguous")]);
}

#[test]
fn b22_wraps_the_count_of_numbers() {
    // 64 doublings have 2^65 - 1 numbers, and the unary rule one more.
    let grammar = doublings("", 1, 64);
    assert_eq!(read_answer(&grammar, "").number, 29);
    assert_eq!(convert_answer(&grammar, "").number, 29);
}

#[test]
fn b23_copies_a_bracket() {
    let grammar = b"a: (\"x\";\"y\")+.";
    assert_eq!(read(grammar, b"", 12, GRAMMAR_TABLE, &mut []).number, 15);
    assert_eq!(read(grammar, b"", 13, GRAMMAR_TABLE, &mut []).number, 16);
}

#[test]
fn b24_splits_a_literal() {
    assert_eq!(
        read(b"a: \"xyz\".", b"", 2, GRAMMAR_TABLE, &mut []).number,
        16
    );
}

#[test]
fn b25_counts_bytes_of_the_record() {
    let record = "é".repeat(RECORD_CHARACTERS);
    assert_eq!(xml("a: ~[]*.", &record), format!("<a>{record}</a>"));
    assert_eq!(
        xml("a: ~[]*.", "é".repeat(RECORD_CHARACTERS + 1)),
        "refused 14"
    );
}

#[test]
fn b26_writes_a_nested_attribute_on_the_element() {
    assert_xml(&[("a: @b. b: @c. c: \"x\".", "x", "<a b='x'/>")]);
}

#[test]
fn b27_drops_text_of_deleted_nonterminals_from_values() {
    assert_xml(&[("a: @b. b: -c. c: \"x\".", "x", "<a b='x'/>")]);
}

#[test]
fn b28_writes_direct_attributes_first() {
    assert_xml(&[(
        "a: -b, @d. b: @c. c: \"x\". d: \"y\".",
        "xy",
        "<a c='x' d='y'/>",
    )]);
}

#[test]
fn b29_writes_an_end_tag_for_nothing() {
    assert_xml(&[
        ("a: .", "", "<a/>"),
        ("a: @b. b: .", "", "<a b=''/>"),
        ("a: b. b: -\"x\".", "x", "<a><b/></a>"),
    ]);
}

#[test]
fn b30_has_one_escape_table() {
    let all = "&<>\r'\n\t\"";
    assert_xml(&[
        ("a: ~[]*.", all, "<a>&amp;&lt;&gt;&#xD;'\n\t\"</a>"),
        (
            "a: @b. b: ~[]*.",
            all,
            "<a b='&amp;&lt;&gt;&#xD;&apos;&#xA;&#x9;\"'/>",
        ),
    ]);
}

#[test]
fn b31_cuts_the_utf8_of_an_insertion() {
    let xml = xml("a: +#7f, +#80, +#800, +#10000.", "");
    assert_eq!(
        xml.as_bytes(),
        b"<a>\x7F\xC2\x80\xE0\xA0\x80\xF0\x90\x80\x80</a>"
    );
}

#[test]
fn b32_takes_the_element_mark_for_none() {
    assert_xml(&[
        ("a: ^b. -b: \"x\".", "x", "<a><b>x</b></a>"),
        ("a: ^b. @b: \"x\".", "x", "<a><b>x</b></a>"),
    ]);
}

#[test]
fn b33_keeps_one_set_of_names_for_the_document() {
    assert_xml(&[(
        "a: b, b. b: @c. c: \"x\".",
        "xx",
        "<a><b c='x'/><b c='x'/></a>",
    )]);
}

#[test]
fn b34_refuses_names_like_xmlns() {
    assert_xml(&[
        ("a: @xmlnsa. xmlnsa: \"x\".", "x", "<a xmlnsa='x'/>"),
        ("a: xmlns. xmlns: \"x\".", "x", "<a><xmlns>x</xmlns></a>"),
        ("xmlns: \"x\".", "x", "<xmlns>x</xmlns>"),
        ("a: @xmlns. xmlns: \"x\".", "x", "refused 22"),
        ("-a: b. b: @xmlns. xmlns: \"x\".", "x", "refused 22"),
    ]);
}

#[test]
fn b35_misses_the_corners_of_the_syntax() {
    assert_check(&[
        ("a: ().", 0),
        ("a: [].", 24),
        ("a: []*.", 0),
        ("a:.", 0),
        ("a: f+\",\". f: .", 4),
        ("a: f*\",\". f: .", 4),
    ]);
}

#[test]
fn b36_leaves_nul_out_of_the_full_set() {
    assert_reading(&[("a: ~[].", "\0", "0"), ("a: ~[L].", "\0", "0")]);
}

#[test]
fn b37_skips_byte_order_marks_in_a_loop() {
    assert_check(&[("\u{FEFF}\u{FEFF}a: .", 3), ("\u{FEFF}a: .", 0)]);
}

#[test]
fn b38_takes_the_category_modulo_256() {
    assert_eq!(category(0x241), None);
    assert_eq!(category(0x41).map(|category| category.code()), Some("Lu"));
}

#[test]
fn b39_shares_one_counter_of_depth() {
    let brackets = format!("{}{{{{}}}}{}", "(".repeat(16), ")".repeat(16));
    assert_eq!(check_number(format!("a: {brackets}.")), 0);
}

/// Elements that lie thousands deep need no deep native stack.
#[test]
fn deep_trees() {
    let rules = 20;
    let mut grammar: String = (0..rules - 1)
        .map(|n| format!("r{n}: r{}. ", n + 1))
        .collect();
    grammar.push_str(&format!("r{}: \"x\", r0; \"x\".", rules - 1));
    let answer = read_answer(&grammar, "x".repeat(RECORD_CHARACTERS));
    assert_eq!(
        (answer.number, answer.length),
        (0, RECORD_CHARACTERS * rules)
    );
    let xml = xml(&grammar, "x".repeat(RECORD_CHARACTERS));
    assert!(xml.starts_with("<r0><r1>") && xml.ends_with("</r1></r0>"));
    assert!(!xml.contains(STATE));
}

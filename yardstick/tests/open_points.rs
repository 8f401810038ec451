//! The settled points A.1 to A.36, one test each, and those of the gate, A.80 to
//! A.85.

mod common;

use common::{
    ample, assert_check, assert_reading, assert_xml, check_number, convert_answer, doublings,
    read_answer, reading, xml, STATE,
};
use ixml_yardstick::gate::{judge, number, Gate, Verdict};
use ixml_yardstick::limits::{GRAMMAR_TABLE, RECORD_CHARACTERS};
use ixml_yardstick::{category, check, convert, program, read, statics, syntax};

fn size(grammar: &str) -> usize {
    statics::size(&syntax::read(grammar).expect(grammar))
}

#[test]
fn a01_order_is_16_29_17_to_22_23() {
    let long = doublings("@", 0, 12);
    let grammar = long.as_bytes();
    let room = (ample(), GRAMMAR_TABLE);
    assert_eq!(read(grammar, b"", room.0, room.1, &mut []).number, 29);
    assert_eq!(convert(grammar, b"", room.0, room.1, &mut []).number, 29);
    let answers = |unary: usize| {
        let answer = read_answer(doublings("", unary, 11), "");
        (answer.number, answer.length)
    };
    assert_eq!(answers(0), (0, 4095));
    assert_eq!(answers(1), (0, 4096));
    assert_eq!(answers(2), (29, 0));
}

#[test]
fn a02_texts_are_judged_before_tables() {
    let number = |grammar: &str, record: &[u8]| {
        let read = read(grammar.as_bytes(), record, 0, 0, &mut []);
        assert_eq!(convert(grammar.as_bytes(), record, 0, 0, &mut []), read);
        read.number
    };
    assert_eq!(number("a: b.", b"x"), 5);
    assert_eq!(number("a: \"x\".", &[0xFF]), 12);
    assert_eq!(number("a: \"x\".", &[b'x'; RECORD_CHARACTERS + 1]), 14);
    assert_eq!(number("a: \"x\".", b"x"), 15);
}

#[test]
fn a03_12_and_13_cover_the_whole_record() {
    let mut record = vec![b'x'; 5000];
    assert_eq!(convert_answer("a: \"x\".", &record).number, 14);
    record.push(0xFF);
    assert_eq!(convert_answer("a: \"x\".", &record).number, 12);
    assert_eq!(program(Some(b"a: \"x\"."), Some(&record)), b"refused 14\n");
    let record = format!("{}\u{180}", "x".repeat(5000));
    assert_eq!(convert_answer("a: \"x\".", record).number, 13);
}

#[test]
fn a04_5_to_10_cover_the_whole_text() {
    let semicolons = ";".repeat(600);
    assert_check(&[
        (&format!("a: {semicolons}[Xx]."), 10),
        (&format!("a: {semicolons}."), 11),
        (&format!("a: {}.", ";".repeat(511)), 0),
        (&format!("a: {}.", ";".repeat(512)), 11),
        ("a: #ffff, #110000.", 7),
        ("a: [Xx; \"b\"-\"a\"].", 9),
        ("a: [#110000-#0].", 7),
        ("a: +#d800.", 8),
        ("a: \"x\". unused: missing.", 5),
        ("a: [Xx], ((((b)))).", 5),
    ]);
}

#[test]
fn a05_18_and_19_before_20_and_21() {
    assert_xml(&[
        ("@\u{AA}: \"x\".", "x", "refused 18"),
        ("-a: #1.", "\u{1}", "refused 19"),
        ("@a: -#1.", "\u{1}", "refused 20"),
    ]);
}

#[test]
fn a06_deleted_descendants_of_a_deleted_root_count() {
    assert_xml(&[("-a: -b. b: #1.", "\u{1}", "refused 19")]);
}

#[test]
fn a07_attributes_of_a_deleted_root_are_on_no_element() {
    assert_xml(&[
        ("-a: @\u{AA}. \u{AA}: \"x\".", "x", "refused 18"),
        ("-a: @b. b: #1.", "\u{1}", "refused 19"),
        ("-a: @b, @b. b: \"x\".", "xx", "refused 21"),
        ("-a: @b, c. b: \"x\". c: .", "x", "refused 21"),
        ("@a: @b, @b. b: \"x\".", "xx", "refused 17"),
    ]);
}

#[test]
fn a08_only_what_is_written_is_judged() {
    assert_xml(&[
        ("-\u{AA}: b. b: \"x\".", "x", "<b>x</b>"),
        ("a: -\u{AA}. \u{AA}: \"x\".", "x", "<a>x</a>"),
        (
            "a: @b. b: @c, @c, \u{AA}, @xmlns. c: \"x\". \u{AA}: . xmlns: .",
            "xx",
            "<a b='xx'/>",
        ),
    ]);
}

#[test]
fn a09_deleted_root_needs_one_element_and_nothing_beside_it() {
    assert_xml(&[
        (
            "-a: -\"(\", b, -\")\", c. -c: . b: \"x\".",
            "(x)",
            "<b>x</b>",
        ),
        ("-a: \" \", b. b: \"x\".", " x", "refused 21"),
        ("-a: .", "", "refused 21"),
        ("-a: -\"x\".", "x", "refused 21"),
        ("-a: b, b. b: \"x\".", "xx", "refused 21"),
        ("-a: b; \"y\". b: \"x\".", "x", "<b>x</b>"),
    ]);
}

#[test]
fn a10_reading_never_judges_the_xml() {
    let answer = read_answer("@a: \"x\".", "x");
    assert_eq!((answer.number, answer.length), (0, 1));
    assert_xml(&[("@a: \"x\"; \"y\", ^a.", "yx", "refused 20")]);
}

#[test]
fn a11_the_library_writes_no_fail_document() {
    let mut buffer = [7; 100];
    let answer = convert(b"a: \"x\".", b"y", ample(), GRAMMAR_TABLE, &mut buffer);
    assert_eq!((answer.number, answer.length), (16, 0));
    assert_eq!(buffer, [7; 100]);
    let expected = format!("<fail{STATE}'failed' place='0'/>\n");
    assert_eq!(program(Some(b"a: \"x\"."), Some(b"y")), expected.as_bytes());
}

#[test]
fn a12_version_mark_only_with_0_and_16() {
    let grammar = "ixml version \"2\". -a: \"x\".";
    let checked = check(grammar.as_bytes());
    assert_eq!((checked.number, checked.version), (0, true));
    let converted = |record: &str| {
        let answer = convert_answer(grammar, record);
        (answer.number, answer.version)
    };
    assert_eq!(converted("x"), (21, false));
    assert_eq!(converted("y"), (16, true));
    let long = format!("ixml version \"2\". {}", doublings("", 0, 12));
    assert!(!read_answer(long, "").version);
    for (main_table, number) in [(0, 15), (1, 23)] {
        let grammar = b"ixml version \"2\". a: .";
        let answer = convert(grammar, b"", main_table, GRAMMAR_TABLE, &mut []);
        assert_eq!((answer.number, answer.version), (number, false));
    }
}

#[test]
fn a13_table_lengths_are_exact() {
    let number = |grammar: &str, record: &str, main: usize, table: usize| {
        let mut result = [0; 64];
        read(
            grammar.as_bytes(),
            record.as_bytes(),
            main,
            table,
            &mut result,
        )
        .number
    };
    assert_eq!(number("a: \"x\".", "x", 6, GRAMMAR_TABLE), 0);
    assert_eq!(number("a: \"x\".", "x", 5, GRAMMAR_TABLE), 15);
    assert_eq!(number("a: \"x\".", "x", 6, GRAMMAR_TABLE - 1), 15);
    assert_eq!(number("a: \"x\"*.", "", 6, GRAMMAR_TABLE), 0);
    assert_eq!(number("a: \"x\"*.", "", 5, GRAMMAR_TABLE), 15);
    // 15 comes before 16.
    assert_eq!(number("a: \"x\".", "y", 5, GRAMMAR_TABLE), 15);
    let full = format!("a: {}.", ";".repeat(511));
    assert_eq!(
        number(
            &full,
            &"x".repeat(RECORD_CHARACTERS),
            10_394_112,
            GRAMMAR_TABLE
        ),
        16
    );
    assert_eq!(
        number(
            &full,
            &"x".repeat(RECORD_CHARACTERS),
            10_394_111,
            GRAMMAR_TABLE
        ),
        15
    );
}

#[test]
fn a14_names_that_are_no_xml_names() {
    for code in 0..=0xFFu8 {
        let character = char::from(code);
        let grammar = format!("a{character}: \"x\".");
        if check_number(&grammar) != 0
            || !syntax::read(&grammar).unwrap().rules[0]
                .name
                .ends_with(character)
        {
            continue;
        }
        let expected = match character {
            '\u{AA}' | '\u{B5}' | '\u{BA}' => "refused 18".to_string(),
            _ => format!("<a{character}>x</a{character}>"),
        };
        assert_eq!(xml(&grammar, "x"), expected);
    }
    assert_check(&[("\u{B7}: .", 4), (".: .", 4), ("-: .", 4), ("1: .", 4)]);
    assert_xml(&[("a\u{B7}.-1: .", "", "<a\u{B7}.-1/>")]);
}

#[test]
fn a15_written_characters() {
    for code in 0..=0xFFu8 {
        let character = char::from(code);
        let good = code >= 0x20 || [b'\t', b'\n', b'\r'].contains(&code);
        for (grammar, record) in [
            ("a: ~[].".to_string(), character.to_string()),
            (format!("a: +#{code:x}."), String::new()),
            (format!("a: @b. b: +#{code:x}."), String::new()),
        ] {
            let refused = xml(&grammar, &record) == "refused 19";
            assert_eq!(refused, !good, "{grammar}");
        }
    }
    assert_eq!(xml("a: ~[].", "\u{85}").as_bytes(), b"<a>\xC2\x85</a>");
    assert_xml(&[("a: +#0.", "", "refused 19"), ("a: -#0.", "\0", "<a/>")]);
}

#[test]
fn a16_hex_outside_the_alphabet_is_legal() {
    assert_reading(&[
        ("a: #180.", "x", "refused 24"),
        ("a: #180; \"x\".", "x", "1"),
    ]);
    assert_xml(&[
        ("a: +#180.", "", "<a>\u{180}</a>"),
        ("a: +#20ac.", "", "<a>\u{20AC}</a>"),
        ("a: +#10FFFD.", "", "<a>\u{10FFFD}</a>"),
        ("a: [\"x\"-#20ac].", "\u{FF}", "<a>\u{FF}</a>"),
        ("a: ~[#20ac].", "x", "<a>x</a>"),
    ]);
}

#[test]
fn a17_repeated_attributes_are_of_one_element() {
    assert_xml(&[
        ("a: (@b)*. b: \"x\".", "xx", "refused 17"),
        (
            "a: @b, c. c: @b. b: \"x\".",
            "xx",
            "<a b='x'><c b='x'/></a>",
        ),
        ("a: c, @b. -c: @b. b: \"x\".", "xx", "refused 17"),
    ]);
}

#[test]
fn a18_state_stands_on_the_document_element() {
    let expected = format!("<b{STATE}'ambiguous'>x</b>");
    assert_xml(&[("-a: b; b. b: \"x\".", "x", &expected)]);
}

#[test]
fn a19_ambiguity_is_of_derivations() {
    assert_reading(&[("a: -b; -c. b: \"x\". c: \"x\".", "x", "0 0 ambiguous")]);
    assert!(convert_answer("a: -b; -c. b: \"x\". c: \"x\".", "x").ambiguous);
}

#[test]
fn a20_values_and_line_ends() {
    assert_xml(&[
        (
            "a: @b. b: \"1\", @c, -\"3\", +\"4\", -d, e. c: \"2\". d: \"5\". e: \"6\".",
            "12356",
            "<a b='12456'/>",
        ),
        ("a: ~[]*.", "\r\n", "<a>&#xD;\n</a>"),
        (
            "a: @b. b: ~[]*.",
            "\r\n\t'\"",
            "<a b='&#xD;&#xA;&#x9;&apos;\"'/>",
        ),
    ]);
}

#[test]
fn a21_byte_order_marks() {
    let mark = "\u{FEFF}";
    assert_xml(&[
        ("a: ~[].", mark, "refused 13"),
        (&format!("{mark}a: \"x\"."), "x", "<a>x</a>"),
    ]);
    assert_check(&[
        (&format!("{mark}{mark}a: \"x\"."), 3),
        (mark, 4),
        (&format!("{mark}a:{}.", " ".repeat(4090)), 0),
        (&format!("{mark}a:{}.", " ".repeat(4091)), 1),
    ]);
}

#[test]
fn a22_version_strings() {
    let marked = |version: &str| {
        let answer = check(format!("ixml version {version}. a: .").as_bytes());
        assert_eq!(answer.number, 0);
        answer.version
    };
    assert!(!marked("'1.0'"));
    assert!(!marked("\"1.0\""));
    assert!(marked("\"1.0 \""));
    assert!(marked("\"1\"\"0\""));
    let answer = check(b"ixml version \"2.0\". a: \"\".");
    assert_eq!((answer.number, answer.version), (4, false));
    let expected = format!("<a{STATE}'version-mismatch'>x</a>");
    assert_xml(&[("ixml version \"2\". a: \"x\".", "x", &expected)]);
}

#[test]
fn a23_prologs() {
    assert_check(&[
        ("ixml version \"1.0\".a: \"x\".", 0),
        ("ixml version\"1.0\". a: \"x\".", 4),
        ("ixml{}version{}\"2\"{}.{}a:.", 0),
        ("ixmlversion \"1.0\". a: \"x\".", 4),
        ("ixml version \"1.0\". ixml version \"1.0\". a: \"x\".", 4),
        ("ixml version \"1.0\".", 4),
        ("ixml: \"x\".", 0),
        ("ixml : \"x\".", 0),
        ("ixml{version}: \"x\".", 0),
        ("ixml: version. version: \"x\".", 0),
        ("ixml version: \"x\".", 4),
        ("a: \"x\". ixml version \"1.0\".", 4),
        ("ixml version \"\". a: .", 4),
        ("ixml version \"1.0\" a: .", 4),
    ]);
}

#[test]
fn a24_names_that_end_in_a_full_stop() {
    assert_check(&[
        ("a: b. . b.: \"x\".", 0),
        ("a: (b.). b.: \"x\".", 0),
        ("a: b.**c. b.: \"x\". c: \",\".", 0),
        ("a: b.{c}c: \"x\". b: \"y\".", 0),
        ("a: b.-c: \"x\".", 4),
        ("a: b.@c: \"x\".", 4),
        ("a: b.{c", 4),
        ("a: b.. b: \"x\".", 5),
        ("a: b. -c: \"x\". b: .", 0),
        ("a: b. ^c: \"x\". b: .", 0),
        ("a: b., b. b.: . b: .", 0),
        ("a: b.|b. b.: . b: .", 0),
        ("a: b.? . b.: .", 0),
        ("a: b.{}", 5),
        ("b: . a: b.", 0),
    ]);
    assert_xml(&[("a: b.. b.: \"x\". b: \"y\".", "x", "<a><b.>x</b.></a>")]);
}

#[test]
fn a25_spacing_only_where_the_grammar_has_it() {
    assert_check(&[
        ("a: - {c} \"x\".", 0),
        ("a: + \"x\".", 0),
        ("a: ~ [].", 0),
        ("a: \"x\" *.", 0),
        ("a: @ {c} b. - b: .", 0),
        ("a: # 41.", 4),
        ("a: [# 41].", 4),
        ("a: \"x\"* *\",\".", 4),
        ("a: \"x\"+ +\",\".", 4),
        ("a{c}b: .", 4),
        ("a: \"x\"+++\"y\".", 0),
        ("a: \"x\"+\"y\".", 4),
        ("a: [ \"a\" - \"b\" ; L ] .", 0),
        ("a: [L u].", 4),
    ]);
}

#[test]
fn a26_a_repetition_takes_a_factor() {
    assert_check(&[
        ("a: \"x\"*?.", 4),
        ("a: \"x\"**\",\"*.", 4),
        ("a: -(\"x\").", 4),
        ("a: @\"x\".", 4),
        ("a: -+\"x\".", 4),
        ("a: +[\"x\"].", 4),
        ("a: (\"x\"*)?.", 0),
    ]);
}

#[test]
fn a27_comments_and_spacing() {
    assert_check(&[
        ("{\"}a: .", 0),
        ("{\0}a: .", 0),
        ("a:{[(}.", 0),
        ("{{}a: .", 4),
        ("}a: .", 4),
        ("a: \"\u{AD}\".", 0),
        ("a: \"\t\".", 4),
        ("a: \"\u{85}\".", 4),
        ("ixml version \"\u{AD}\". a: .", 0),
        ("ixml version \"\n\". a: .", 4),
    ]);
    for space in [' ', '\u{A0}', '\t', '\n', '\r'] {
        assert_eq!(
            check_number(format!("a{space}:{space}.{space}b: .{space}")),
            0
        );
    }
    for other in ['\u{B}', '\u{C}', '\u{85}', '\u{AD}', '\0'] {
        assert_eq!(check_number(format!("a:{other}.")), 4);
    }
}

#[test]
fn a28_empty_alternatives_count() {
    assert_reading(&[
        ("a: \"x\";;\"y\".", "", "1"),
        ("a: ;.", "", "0 ambiguous"),
        ("a: ().", "", "0 0"),
    ]);
    assert_check(&[
        ("a: \"x\",.", 4),
        ("a: ,\"x\".", 4),
        ("a: [;].", 4),
        ("a: [\"a\";].", 4),
    ]);
}

#[test]
fn a29_classes() {
    assert_check(&[
        ("a: [Lc].", 10),
        ("a: [LC].", 0),
        ("a: [LL].", 10),
        ("a: [lu].", 4),
        ("a: [Lux].", 4),
        ("a: [Cn].", 24),
        ("a: [Cn]; \"x\".", 0),
        ("a: [Q].", 10),
        ("a: [L1].", 4),
    ]);
}

#[test]
fn a30_ends_of_ranges() {
    assert_check(&[
        ("a: ['''' - \"z\"].", 0),
        ("a: [\"\"\"\"-#7a].", 0),
        ("a: [\"ab\"-\"c\"].", 4),
        ("a: [\"a\"-\"bc\"].", 4),
        ("a: [\"a\"-L].", 4),
        ("a: [\"a\"-].", 4),
        ("a: [#d7ff-#e000]; \"x\".", 0),
        ("a: [#d800-#dfff].", 8),
        ("a: [#fdcf-#fdf0]; \"x\".", 0),
        ("a: [#fdd0].", 8),
        ("a: [#fdef].", 8),
        ("a: [\"a\"-\"a\"].", 0),
    ]);
    for plane in 0..=0x10 {
        assert_check(&[
            (&format!("a: #{plane:x}fffd."), 24),
            (&format!("a: +#{plane:x}fffd."), 0),
            (&format!("a: #{plane:x}fffe."), 8),
            (&format!("a: #{plane:x}ffff."), 8),
        ]);
    }
}

#[test]
fn a31_sizes() {
    let sizes = [
        ("\"x\"", 2),
        ("(\"x\")", 4),
        ("\"x\"?", 5),
        ("\"x\"*", 6),
        ("\"x\"+", 9),
        ("\"x\"++\",\"", 10),
        ("\"x\"**\",\"", 13),
        ("(\"x\";\"y\")+", 13),
        ("(\"x\"*)+", 15),
        ("\"x\"*, \"x\"*", 11),
        ("+\"x\"", 2),
    ];
    for (body, expected) in sizes {
        let grammar = format!("a: {body}.");
        assert_eq!(size(&grammar), expected, "{body}");
        // The table that the calls demand tells the same size.
        let number =
            |table: usize| read(grammar.as_bytes(), b"", table, GRAMMAR_TABLE, &mut [0; 64]).number;
        assert_eq!(number(expected - 1), 15, "{body}");
        assert_ne!(number(expected), 15, "{body}");
    }
    assert_eq!(size("a: \"x\". unused: \"x\"."), 4);
}

#[test]
fn a32_depths() {
    let nested = |brackets: usize, braces: usize| {
        format!(
            "a: {}{}{}{}.",
            "(".repeat(brackets),
            "{".repeat(braces),
            "}".repeat(braces),
            ")".repeat(brackets)
        )
    };
    assert_check(&[
        (&nested(16, 16), 0),
        (&nested(17, 0), 4),
        (&nested(0, 17), 4),
        (&nested(16, 17), 4),
    ]);
    let separator = |depth: usize| {
        let inner = format!("{}\"x\"{}", "(".repeat(depth), ")".repeat(depth));
        format!("a: (\"x\"++{inner}).")
    };
    assert_check(&[(&separator(15), 0), (&separator(16), 4)]);
    assert_eq!(check_number("a: () , () , (()). b: {}{{}}."), 0);
    assert_eq!(
        check_number(format!("a: {}.", vec!["()"; 100].join(", "))),
        0
    );
}

#[test]
fn a33_all_characters_of_the_complete_grammar_are_known() {
    let rule = "-namefollower: namestart; [\"-.\u{B7}\u{203F}\u{2040}\"; Nd; Mn]. namestart: .";
    assert_check(&[(rule, 0), (&rule.replace('\u{203F}', "\u{203E}"), 3)]);
}

#[test]
fn a34_what_the_program_reads() {
    let long = [b'x'; 4097];
    assert_eq!(program(None, Some(b"x")), b"unreadable\n");
    assert_eq!(program(Some(b"a: \"x\"."), None), b"unreadable\n");
    assert_eq!(program(None, Some(&long)), b"unreadable\n");
    assert_eq!(program(Some(b"a: b."), Some(&long)), b"refused 14\n");
    assert_eq!(program(Some(b"a: b."), Some(&long[1..])), b"refused 5\n");
    assert_eq!(
        program(Some(b"a: \"x\"."), Some(&long[1..])),
        b"refused 14\n"
    );
    assert_eq!(program(Some(b"a: \"x\"."), Some(b"x")), b"<a>x</a>\n");
    let expected = format!("<fail{STATE}'failed version-mismatch' place='0'/>\n");
    let grammar = b"ixml version \"2\". a: \"x\".";
    assert_eq!(program(Some(grammar), Some(b"y")), expected.as_bytes());
}

#[test]
fn a35_the_program_provides_a_short_table() {
    let record = [b'x'; RECORD_CHARACTERS];
    assert_eq!(program(Some(b"a: ~[]*."), Some(&record)), b"refused 15\n");
    let needed = |table: usize| {
        let mut result = [0; RECORD_CHARACTERS + 2];
        read(b"a: ~[]*.", &record, table, GRAMMAR_TABLE, &mut result).number
    };
    assert_eq!((needed(121_805), needed(121_806)), (15, 0));
}

#[test]
fn a36_categories_outside_the_alphabet_are_not_known() {
    for code in [0x180, 0x2FF, 0x370, 0x203E, 0x2041, 0x1_0041, u32::MAX] {
        assert_eq!(category(code), None);
    }
    assert!((0..=0x17F).all(|code| category(code).is_some()));
    assert_eq!(reading("a: [Lu].", "A"), "0");
}

/// A gate around 45 degrees north and 12 degrees east.
const FIELDS: Gate = Gate::Box {
    latitude: [44.0, 46.0],
    longitude: [11.0, 13.0],
};

/// The verdict on two texts, or the number of the refusal.
fn ruling(gate: Gate, latitude: &str, longitude: &str) -> Result<Verdict, u32> {
    judge(gate, latitude.as_bytes(), longitude.as_bytes()).map_err(|refusal| refusal.number())
}

#[test]
fn a80_30_then_31_then_32() {
    let backward = Gate::Band {
        latitude: [2.0, 1.0],
    };
    assert_eq!(ruling(backward, "x", "x"), Err(30));
    assert_eq!(ruling(FIELDS, "x", "181"), Err(31));
    assert_eq!(ruling(FIELDS, "91", "12."), Err(31));
    assert_eq!(ruling(FIELDS, "91", "12"), Err(32));
    assert_eq!(ruling(FIELDS, "90", "180"), Ok(Verdict::Suspect));
}

#[test]
fn a81_limits_beyond_90_and_180_are_no_refusal() {
    let wide = Gate::Box {
        latitude: [-400.0, 400.0],
        longitude: [-400.0, 400.0],
    };
    assert_eq!(ruling(wide, "45", "12"), Ok(Verdict::Inside));
    assert_eq!(ruling(wide, "400", "12"), Err(32));
    let infinite = Gate::Band {
        latitude: [f64::NEG_INFINITY, 90.0],
    };
    assert_eq!(ruling(infinite, "45", "12"), Err(30));
    let unordered = Gate::Band {
        latitude: [f64::NAN, f64::NAN],
    };
    assert_eq!(ruling(unordered, "45", "12"), Err(30));
}

#[test]
fn a82_minus_zero_compares_as_zero() {
    let equator = Gate::Band {
        latitude: [0.0, -0.0],
    };
    assert_eq!(ruling(equator, "-0", "0"), Ok(Verdict::Inside));
    assert_eq!(ruling(equator, "0.000", "0"), Ok(Verdict::Inside));
    assert_eq!(number(b"-0").map(f64::to_bits), Some((-0.0_f64).to_bits()));
}

#[test]
fn a83_an_exchanged_latitude_beyond_90_is_not_inside() {
    let strip = Gate::Box {
        latitude: [80.0, 120.0],
        longitude: [0.0, 20.0],
    };
    assert_eq!(ruling(strip, "10", "85"), Ok(Verdict::Swapped));
    assert_eq!(ruling(strip, "10", "90"), Ok(Verdict::Swapped));
    assert_eq!(ruling(strip, "10", "100"), Ok(Verdict::Suspect));
}

#[test]
fn a84_band_and_anywhere_never_say_swapped() {
    let band = Gate::Band {
        latitude: [44.0, 46.0],
    };
    assert_eq!(ruling(FIELDS, "12", "45"), Ok(Verdict::Swapped));
    assert_eq!(ruling(band, "12", "45"), Ok(Verdict::Suspect));
    assert_eq!(ruling(Gate::Anywhere, "12", "45"), Ok(Verdict::Inside));
}

#[test]
fn a85_number_texts() {
    for text in ["0", "007", "-180.000000001", "999.999999999", "-0.1"] {
        assert_eq!(number(text.as_bytes()), text.parse().ok(), "{text}");
    }
    for text in [
        "",
        "-",
        "+1",
        "--1",
        "1000",
        ".5",
        "-.5",
        "1.",
        "1.0000000000",
        "1e1",
        " 1",
        "1 ",
        "1,5",
        "inf",
        "NaN",
        "١",
    ] {
        assert_eq!(number(text.as_bytes()), None, "{text}");
    }
    assert_eq!(number(b"1\n"), None);
    assert_eq!(number(b"1\xFF"), None);
}

//! The worked examples of the ixml specification, without the spacing that it
//! adds for legibility.

mod common;

use common::{assert_reading, check_number, reading, xml, IXML};
use ixml_yardstick::program;

const URL: &str = "http://www.w3.org/TR/1999/xhtml.html";

/// The simplified grammar for URLs, with some of its rules exchanged.
fn url_grammar(changes: &[(&str, &str)]) -> String {
    let mut rules = vec![
        "url: scheme, \":\", authority, path.",
        "scheme: letter+.",
        "authority: \"//\", host.",
        "host: sub++\".\".",
        "sub: letter+.",
        "path: (\"/\", seg)+.",
        "seg: fletter*.",
        "-letter: [\"a\"-\"z\"]; [\"A\"-\"Z\"]; [\"0\"-\"9\"].",
        "-fletter: letter; \".\".",
    ];
    for (name, rule) in changes {
        let start = format!("{name}:");
        let old = rules
            .iter_mut()
            .find(|rule| rule.trim_start_matches('-').starts_with(&start));
        *old.expect(name) = rule;
    }
    rules.join("\n")
}

const HOST: &str = "<host><sub>www</sub>.<sub>w3</sub>.<sub>org</sub></host>";
const PATH: &str = "<path>/<seg>TR</seg>/<seg>1999</seg>/<seg>xhtml.html</seg></path>";

#[test]
fn url() {
    let expected =
        format!("<url><scheme>http</scheme>:<authority>//{HOST}</authority>{PATH}</url>");
    assert_eq!(xml(url_grammar(&[]), URL), expected);
}

/// The example needs a longer table than the program provides.
#[test]
fn url_in_the_program() {
    let output = program(Some(url_grammar(&[]).as_bytes()), Some(URL.as_bytes()));
    assert_eq!(output, b"refused 15\n");
}

#[test]
fn url_with_letters_as_elements() {
    let grammar = url_grammar(&[(
        "letter",
        "letter: [\"a\"-\"z\"]; [\"A\"-\"Z\"]; [\"0\"-\"9\"].",
    )]);
    let start = "<url><scheme><letter>h</letter><letter>t</letter><letter>t</letter>\
                 <letter>p</letter></scheme>:<authority>//<host><sub><letter>w</letter>";
    assert!(xml(grammar, URL).starts_with(start));
}

#[test]
fn url_with_the_scheme_name_as_attribute() {
    let grammar = url_grammar(&[("scheme", "scheme: name.\n@name: letter+.")]);
    let expected =
        format!("<url><scheme name='http'/>:<authority>//{HOST}</authority>{PATH}</url>");
    assert_eq!(xml(grammar, URL), expected);
}

#[test]
fn url_with_the_scheme_as_attribute() {
    let grammar = url_grammar(&[("scheme", "@scheme: letter+.")]);
    let expected = format!("<url scheme='http'>:<authority>//{HOST}</authority>{PATH}</url>");
    assert_eq!(xml(grammar, URL), expected);
}

const DELETED_PARTS: [(&str, &str); 3] = [
    ("scheme", "@scheme: letter+."),
    ("sub", "-sub: letter+."),
    ("seg", "-seg: fletter*."),
];

/// The specification leaves out the authority element here, although its rule
/// is not marked; the element is written.
#[test]
fn url_with_deleted_parts() {
    let grammar = url_grammar(&DELETED_PARTS);
    let expected = "<url scheme='http'>:<authority>//<host>www.w3.org</host></authority>\
                    <path>/TR/1999/xhtml.html</path></url>";
    assert_eq!(xml(grammar, URL), expected);
}

#[test]
fn url_with_deleted_characters() {
    let mut changes = DELETED_PARTS.to_vec();
    changes.push(("url", "url: scheme, -\":\", authority, path."));
    let mut marked = changes.clone();
    changes.push(("authority", "authority: -\"//\", host."));
    let expected = "<url scheme='http'><authority><host>www.w3.org</host></authority>\
                    <path>/TR/1999/xhtml.html</path></url>";
    assert_eq!(xml(url_grammar(&changes), URL), expected);
    marked.push(("authority", "-authority: -\"//\", host."));
    let expected = "<url scheme='http'><host>www.w3.org</host>\
                    <path>/TR/1999/xhtml.html</path></url>";
    assert_eq!(xml(url_grammar(&marked), URL), expected);
}

#[test]
fn insertion() {
    let grammar = r#"
        data: value++-",", @source.
        source: +"ixml".
        value: pos; neg.
        -pos: +"+", digit+.
        -neg: +"-", -"(", digit+, -")".
        -digit: ["0"-"9"].
    "#;
    let expected = "<data source='ixml'><value>+100</value><value>+200</value>\
                    <value>-300</value><value>+400</value></data>";
    assert_eq!(xml(grammar, "100,200,(300),400"), expected);
}

#[test]
fn repetitions() {
    let accepted = |grammar: &str, records: &[&str]| {
        for record in records {
            assert!(
                !reading(grammar, record).starts_with("refused"),
                "{grammar} | {record}"
            );
        }
    };
    accepted("r: \"a\"**\"#\".", &["", "a", "a#a", "a#a#a"]);
    accepted("r: \"a\"++\"#\".", &["a", "a#a", "a#a#a"]);
    accepted(
        "r: \"a\"++(\"#\"; \"!\").",
        &["a#a", "a!a", "a#a!a", "a!a#a", "a#a#a"],
    );
    accepted("r: \"a\"?.", &["a", ""]);
    assert_reading(&[
        ("r: \"a\"++\"#\".", "", "refused 16"),
        ("r: \"a\"**\"#\".", "a#", "refused 16"),
    ]);
}

#[test]
fn equal_strings_and_sets() {
    for string in ["'Isn''t it?'", "\"Isn't it?\""] {
        assert_eq!(reading(format!("a: {string}."), "Isn't it?"), "0");
    }
    for string in ["\"He said \"\"Don't!\"\"\"", "'He said \"Don''t!\"'"] {
        assert_eq!(reading(format!("a: {string}."), "He said \"Don't!\""), "0");
    }
    let sets = [
        "[\"abc\"]",
        "[\"a\"; \"b\"; \"c\"]",
        "[\"a\"-\"c\"]",
        "[#61-#63]",
    ];
    for set in sets {
        for code in 0..=0xFFu8 {
            let expected = if (b'a'..=b'c').contains(&code) {
                "0"
            } else {
                "refused 16"
            };
            let record = char::from(code).to_string();
            assert_eq!(reading(format!("a: {set}."), record), expected);
        }
    }
}

#[test]
fn ixml_in_ixml() {
    assert_eq!(check_number(IXML), 0);
    let cases = [
        (
            "-tab: -#9.",
            "<ixml><rule mark='-' name='tab'><alt><literal tmark='-' hex='9'/></alt></rule></ixml>",
        ),
        (
            "comment: -\"{\", (cchar; comment)*, -\"}\".",
            "<ixml><rule name='comment'><alt><literal tmark='-' string='{'/><repeat0><alts>\
             <alt><nonterminal name='cchar'/></alt><alt><nonterminal name='comment'/></alt></alts>\
             </repeat0><literal tmark='-' string='}'/></alt></rule></ixml>",
        ),
        (
            "-cchar: ~[\"{}\"].",
            "<ixml><rule mark='-' name='cchar'><alt><exclusion><member string='{}'/></exclusion>\
             </alt></rule></ixml>",
        ),
    ];
    for (record, expected) in cases {
        assert_eq!(xml(IXML, record), expected, "{record}");
    }
}

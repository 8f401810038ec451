//! The numbered cases of the scope document and the worked examples of the ixml
//! specification, read and converted by the proved library.

use ixml::limits::RECORD_CHARACTERS;
use ixml::{check, Reader};

const STATE: &str = " xmlns:ixml='http://invisiblexml.org/NS' ixml:state=";

/// The XML, or the refusal.
fn xml(grammar: impl AsRef<[u8]>, record: impl AsRef<[u8]>) -> String {
    match Reader::new().convert(grammar, record) {
        Ok(converted) => converted.xml,
        Err(error) => format!("refused {}", error.number()),
    }
}

/// The numbers, and whether there are more derivations.
fn reading(grammar: &str, record: &str) -> String {
    match Reader::new().read(grammar, record) {
        Ok(reading) => {
            let mut words: Vec<String> = reading.numbers.iter().map(u32::to_string).collect();
            words.extend(reading.ambiguous.then(|| "ambiguous".to_owned()));
            words.join(" ")
        }
        Err(error) => format!("refused {}", error.number()),
    }
}

#[test]
fn readings() {
    let position = "lat: d+. lon: d+. -d: [\"0\"-\"9\"].";
    let clear = format!("p: @lat, -\" \", @lon. {position}");
    let cases = [
        ("a: \"x\".", "x", "0"),
        ("a: \"x\".", "", "refused 16"),
        ("a: \"x\"*.", "", "0 1"),
        ("a: \"x\"*.", "xx", "0 0 0 1"),
        ("a: \"x\"; \"x\".", "x", "0 ambiguous"),
        ("a: a; \"x\".", "x", "1 ambiguous"),
        ("a: (\"x\"?)*.", "", "0 1 ambiguous"),
        (clear.as_str(), "45 12", "0 0 0 0 0 0 1 0 0 0 0 0 1"),
    ];
    for (grammar, record, expected) in cases {
        assert_eq!(reading(grammar, record), expected, "{grammar} | {record}");
    }
}

#[test]
fn documents() {
    let position = "lat: d+. lon: d+. -d: [\"0\"-\"9\"].";
    let two_ways = format!("p: (@lat, -\" \", @lon; @lon, -\" \", @lat). {position}");
    let longest = "x".repeat(RECORD_CHARACTERS);
    let cases = [
        ("a: \"x\".", "x", "<a>x</a>".to_owned()),
        ("a: \"x\"*.", "", "<a/>".to_owned()),
        (
            "a: \"x\"; \"x\".",
            "x",
            format!("<a{STATE}'ambiguous'>x</a>"),
        ),
        ("a: +\"z\".", "", "<a>z</a>".to_owned()),
        (
            two_ways.as_str(),
            "45 12",
            format!("<p{STATE}'ambiguous' lat='45' lon='12'/>"),
        ),
        ("-a: \"x\".", "x", "refused 21".to_owned()),
        ("@a: \"x\".", "x", "refused 20".to_owned()),
        ("-a: b. b: \"x\".", "x", "<b>x</b>".to_owned()),
        ("a: @b, @b. b: \"x\".", "xx", "refused 17".to_owned()),
        ("\u{AA}: \"x\".", "x", "refused 18".to_owned()),
        ("a: b.. b.: \"x\".", "x", "<a><b.>x</b.></a>".to_owned()),
        ("a: ~[]*.", "<&>", "<a>&lt;&amp;&gt;</a>".to_owned()),
        ("a: ~[]*.", longest.as_str(), format!("<a>{longest}</a>")),
    ];
    for (grammar, record, expected) in cases {
        assert_eq!(xml(grammar, record), expected, "{grammar} | {record}");
    }
    assert_eq!(
        xml("a: ~[]*.", "x".repeat(RECORD_CHARACTERS + 1)),
        "refused 14"
    );
}

#[test]
fn grammars() {
    let cases = [
        ("a: \"\".", 4),
        ("a: \"x\".b: \"y\".", 4),
        ("a: b.", 5),
        ("a: \"x\". a: \"y\".", 6),
        ("a: #110000.", 7),
        ("a: #10ffff.", 8),
        ("a: [\"b\"-\"a\"].", 9),
        ("a: [Xx].", 10),
        ("a: #10fffd.", 24),
    ];
    for (grammar, number) in cases {
        assert_eq!(check(grammar.as_bytes()).number, number, "{grammar}");
    }
}

/// The URL grammar of the specification, with some of its rules exchanged.
fn url(changes: &[(&str, &str)]) -> String {
    let mut grammar = "url: scheme, \":\", authority, path.\nscheme: letter+.\n\
                       authority: \"//\", host.\nhost: sub++\".\".\nsub: letter+.\n\
                       path: (\"/\", seg)+.\nseg: fletter*.\n\
                       -letter: [\"a\"-\"z\"]; [\"A\"-\"Z\"]; [\"0\"-\"9\"].\n\
                       -fletter: letter; \".\"."
        .to_owned();
    for (old, new) in changes {
        assert_eq!(grammar.matches(old).count(), 1, "{old}");
        grammar = grammar.replace(old, new);
    }
    grammar
}

#[test]
fn specification() {
    let record = "http://www.w3.org/TR/1999/xhtml.html";
    let host = "<host><sub>www</sub>.<sub>w3</sub>.<sub>org</sub></host>";
    let path = "<path>/<seg>TR</seg>/<seg>1999</seg>/<seg>xhtml.html</seg></path>";
    assert_eq!(
        xml(url(&[]), record),
        format!("<url><scheme>http</scheme>:<authority>//{host}</authority>{path}</url>")
    );
    assert_eq!(
        xml(
            url(&[("scheme: letter+.", "scheme: name.\n@name: letter+.")]),
            record
        ),
        format!("<url><scheme name='http'/>:<authority>//{host}</authority>{path}</url>")
    );
    assert_eq!(
        xml(url(&[("scheme: letter+.", "@scheme: letter+.")]), record),
        format!("<url scheme='http'>:<authority>//{host}</authority>{path}</url>")
    );
    let deleted = [
        ("scheme: letter+.", "@scheme: letter+."),
        ("sub: letter+.", "-sub: letter+."),
        ("\nseg: fletter*.", "\n-seg: fletter*."),
        ("scheme, \":\",", "scheme, -\":\","),
        ("authority: \"//\"", "authority: -\"//\""),
    ];
    assert_eq!(
        xml(url(&deleted), record),
        "<url scheme='http'><authority><host>www.w3.org</host></authority>\
         <path>/TR/1999/xhtml.html</path></url>"
    );
    let expr = "expr: open, -arith, @close, -\";\".\n@open: \"(\".\nclose: \")\".\n\
                arith: left, op, ^right.\nleft: operand.\n-right: operand.\n\
                -operand: name; -number.\n@name: [\"a\"-\"z\"].\n@number: [\"0\"-\"9\"].\n\
                -op: sign.\n@sign: \"+\"; \"-\".";
    assert_eq!(
        xml(expr, "(a+1);"),
        "<expr open='(' sign='+' close=')'><left name='a'/><right>1</right></expr>"
    );
    let data = "data: value++-\",\", @source.\nsource: +\"ixml\".\nvalue: pos; neg.\n\
                -pos: +\"+\", digit+.\n-neg: +\"-\", -\"(\", digit+, -\")\".\n-digit: [\"0\"-\"9\"].";
    assert_eq!(
        xml(data, "100,200,(300),400"),
        "<data source='ixml'><value>+100</value><value>+200</value>\
         <value>-300</value><value>+400</value></data>"
    );
}

/// The specification's complete grammar, of which it shows the XML.
#[test]
fn the_complete_grammar_reads_its_own_first_lines() {
    let complete = include_str!("../../tests/grammars/ixml.ixml");
    assert_eq!(check(complete.as_bytes()).number, 0);
    let six: Vec<&str> = complete.lines().take(6).collect();
    let converted = xml(complete, six.join("\n"));
    let first = "<ixml><rule name='ixml'><alt><nonterminal name='s'/>\
                 <option><nonterminal name='prolog'/></option>\
                 <repeat1><nonterminal name='rule'/><sep><nonterminal name='RS'/></sep></repeat1>\
                 <nonterminal name='s'/></alt></rule>";
    assert_eq!(converted.get(..first.len()), Some(first), "{converted}");
    assert_eq!(converted.matches("<rule ").count(), 6);
    assert!(converted.contains("<comment>Required spacing</comment>"));
}

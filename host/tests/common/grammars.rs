//! Grammars to check: damaged ones, faulty ones, and those at the limits.

use ixml_yardstick::gen::{self, Random, Style};
use ixml_yardstick::{statics, syntax};

/// Alternatives that are right, wrong, or wrong only by a static rule.
#[rustfmt::skip]
const BODIES: &[&str] = &[
    "#110000", "#10ffff", "#10fffd", "#d800", "#dfff", "#d7ff", "#e000", "#fdd0", "#fdef", "#fdcf",
    "#fdf0", "#FFFE", "#ffff", "#fffd", "#1fffe", "#20000", "#100000041", "#ffffffffffffffffffff",
    "#00000000000000000041", "#00110000", "#0", "#", "# 41", "#4g", "+#d800", "+#110000", "+#41",
    "+ 'x'", "+\"x\"", "-+'x'", "+-'x'", "+", "++'x'", "[#110000]", "[#d800-#e000]", "['b'-'a']",
    "['a'-'a']", "[#62-'a']", "['a'-#10ffff]", "['a' - 'b' ]", "['ab'-'c']", "['a'-'b'-'c']",
    "[#61-#7a; #30-#39]", "[''''-'a']", "['a'-]", "[Xx]", "[L]", "[LC]", "[Lc]", "[C;Cn]",
    "[Zz|'q']", "[Lu;Ll;Nd]", "[l]", "[Lul]", "[L L]", "[]", "~[]", "~['x']", "~ [ ]", "-~['x']",
    "^[]", "- ~ [ 'x' | 'y' ]", "@['x']", "~~[]", "[;]", "['a';]", "[;'a']", "['a' ; 'b']",
    "['a','b']", "[['a']]", "['a'", "'a']", "missing", "-missing", "@missing", "^missing",
    "missing*", "'x'**missing", "(missing)", "z9", "-z9", "@z9?", "z9.", "z9..", "z9. ", "z9 .",
    "z9.x", "z9-z9", "_", "z\u{B7}", "\u{AA}", "'it''s'", "\"\"\"\"", "''''", "''", "\"\"", "'",
    "'\"'", "'\u{7F}'", "'\u{A0}'", "'\t'", "\u{A0}'x'", "\u{AD}'x'", "'\u{AD}'", "\u{85}'x'",
    "\r\n'x'", "\u{B}'x'", "('x')", "(('x');)", "()", "(;)", "(|)", "('x'", "'x')", "('x')('y')",
    "('x','y';'z')?", "-('x')", "'x'?", "'x'*", "'x'+", "'x'**'y'", "'x'++'y'", "'x'++('y';'z')",
    "('x')**('y')", "'x'+ +'y'", "'x'+++'y'", "'x'??", "'x'*+", "'x'***", "'x'** 'y'", "'x'* *'y'",
    "*'x'", "- 'x'", "^'x'", "@'x'", "-'x'", "--'x'", "-^'x'", "'x' 'y'", ",", "'x',", "'x',,'y'",
    "'x','y'", "'x', 'y' , 'z'", "'x';", ";'x'", ";", "|", "'x'|'y'", "'x';|'y'", "", " ", "{c}'x'",
    "'x'{c}", "{{c}}", "{}", "{", "}", "{{}", "{\"}", "{'}'x'", "{\u{FF}\u{0}}", "{}{}", "x:",
    "x:'y'", "= 'x'", ".", "..", "'x'. y9: 'y'", "'x'.y9: 'y'", "'x'. z9: 'y'", "'x'.\u{A0}y9=",
];

/// Terms in the ixml language, some of them wrong by a static rule or nearly so.
#[rustfmt::skip]
const TERMS: &[&str] = &[
    "missing", "@missing", "(missing)?", "'x'**missing", "z9", "z9.", "a", "-a*", "#110000",
    "#10ffff", "#10fffd", "#d800", "#dfff", "#d7ff", "#e000", "#fdd0", "#fdef", "#fdcf", "#fdf0",
    "#FFFE", "#ffff", "#fffd", "#1fffe", "#20000", "#100000041", "+#d800", "+#110000", "[#110000]",
    "[#d800-#e000]", "[#0-#110000]", "['b'-'a']", "['a'-'a']", "[#62-'a']", "['b'-#61]",
    "['a'-#10ffff]", "~['z'-'y'; L]", "[#61-#7a; #39-#30]", "[Xx]", "[LC]", "[Lc]", "[C;Cn]",
    "[Zz|'q']", "['q'; M; Mx]", "[A]", "~[Lu|Lv]",
];

/// What may stand between two of them.
const SIGNS: [&str; 5] = [", ", "; ", ",", "|", " | "];

#[rustfmt::skip]
const PROLOGS: &[&str] = &[
    "ixml version \"1.0\". ", "ixml version '1.0'.", "ixml version \"1.1\". ",
    "ixml version \"\". ", "ixml version \"1.0 \". ", "ixml version '1''0'.",
    "ixml{c}version{c}\"2\"{c}.{c}", "ixml version\"1.0\". ", "ixmlversion \"1.0\". ",
    "ixml  version \"1.0\" .", "Ixml version '1.0'.", "ixml version \"1.0\" ",
    "ixml version \"1.0\".. ", "ixml: 'x'. ", "ixml version: 'x'. ", "{c} ixml version \"1.0\". ",
    "ixml version \"1.0\". ixml version \"1.0\". ", "ixml version '\u{9}'.",
];

/// A grammar: well made, damaged by a few characters, or spoiled.
pub fn made_up(random: &mut Random) -> Vec<u8> {
    let style = *random.pick(&Style::ALL);
    let mut grammar = gen::grammar(random, style).into_bytes();
    if random.chance(60) {
        for _ in 0..=random.below(2) {
            spoil(random, &mut grammar);
        }
    }
    grammar
}

/// Changes a grammar's bytes, or puts something to it.
pub fn spoil(random: &mut Random, grammar: &mut Vec<u8>) {
    match random.below(20) {
        0 => {
            let at = random.below(grammar.len() + 1);
            grammar.insert(at, random.number() as u8);
        }
        1 if !grammar.is_empty() => {
            let at = random.below(grammar.len());
            grammar[at] = random.number() as u8;
        }
        2 => grammar.truncate(random.below(grammar.len() + 1)),
        3 => {
            let marks = "\u{FEFF}".repeat(1 + random.below(2));
            grammar.splice(0..0, marks.bytes());
        }
        4 => {
            let text = *random.pick(&["\u{100}", "\u{180}", "\u{FEFF}", "\u{20AC}", "\u{10000}"]);
            insert(random, grammar, text);
        }
        5 | 6 => {
            let prolog = *random.pick(PROLOGS);
            grammar.splice(0..0, prolog.bytes());
        }
        7 => {
            let text = nested(random);
            insert(random, grammar, &text);
        }
        8 => {
            let text = nested(random);
            rule(random, grammar, &text);
        }
        9 => fill_size(random, grammar),
        10 => fill_bytes(random, grammar),
        11 | 12 => {
            let body = *random.pick(BODIES);
            insert(random, grammar, body);
        }
        _ => {
            let choices = *random.pick(&[BODIES, TERMS]);
            let mut body = random.pick(choices).to_string();
            for _ in 0..random.below(3) {
                let (sign, part) = (*random.pick(&SIGNS), *random.pick(choices));
                body.push_str(sign);
                body.push_str(part);
            }
            rule(random, grammar, &body);
        }
    }
}

/// Puts a text between two bytes of the grammar.
fn insert(random: &mut Random, grammar: &mut Vec<u8>, text: &str) {
    let at = random.below(grammar.len() + 1);
    grammar.splice(at..at, text.bytes());
}

/// Puts a rule behind the others.
fn rule(random: &mut Random, grammar: &mut Vec<u8>, body: &str) {
    let start = *random.pick(&[" z9: ", "\nz9=", " -z9: ", "{c}@ z9 : ", " ^z9:"]);
    let end = *random.pick(&[".", " .", ".\n", ". {c}", "."]);
    for part in [start, body, end] {
        grammar.extend(part.bytes());
    }
}

/// Brackets or comments about as deep as is allowed.
fn nested(random: &mut Random) -> String {
    let depth = 14 + random.below(5);
    let (open, close) = *random.pick(&[
        ("(", ")"),
        ("{", "}"),
        ("('x',", ";)?"),
        ("{a{b}", "}"),
        ("('x'**", ")"),
    ]);
    let middle = *random.pick(&["", "'x'", "{}", "z9"]);
    let missing = usize::from(random.chance(10));
    let closing = close.repeat(depth - missing);
    format!("{}{middle}{closing}", open.repeat(depth))
}

/// Brings a grammar's size near to the greatest.
fn fill_size(random: &mut Random, grammar: &mut Vec<u8>) {
    let size = std::str::from_utf8(grammar)
        .ok()
        .and_then(|text| syntax::read(text).ok())
        .map_or(0, |syntax| statics::size(&syntax));
    let missing = (509 + random.below(6)).saturating_sub(size);
    if missing > 0 {
        rule(random, grammar, &";".repeat(missing - 1));
    }
}

/// Brings a grammar's length near to the greatest.
fn fill_bytes(random: &mut Random, grammar: &mut Vec<u8>) {
    let length = 4094 + random.below(5);
    let missing = length.saturating_sub(grammar.len());
    let start = grammar.len();
    match random.below(3) {
        0 => grammar.extend(std::iter::repeat_n(b' ', missing)),
        1 => grammar.extend("\u{A0}".bytes().cycle().take(missing)),
        _ => {
            grammar.extend(std::iter::repeat_n(b'c', missing));
            if missing >= 2 {
                grammar[start] = b'{';
                grammar[length - 1] = b'}';
            }
        }
    }
}

/// A text of at most `length` bytes: a start, a part as often as it fits, and
/// an end.
fn filled(length: usize, start: &str, part: &str, end: &str) -> String {
    let count = (length - start.len() - end.len()) / part.len();
    format!("{start}{}{end}", part.repeat(count))
}

/// A text of at most `length` bytes: parts made from their numbers, from 0.
fn numbered(length: usize, part: impl Fn(usize) -> String) -> String {
    let mut text = String::new();
    for number in 0.. {
        let part = part(number);
        if text.len() + part.len() > length {
            break;
        }
        text.push_str(&part);
    }
    text
}

/// A text with spaces behind it.
fn padded(length: usize, mut text: String) -> String {
    text.push_str(&" ".repeat(length - text.len()));
    text
}

/// 250 rules, each of which is the next, in no order; the last one is `last`.
fn ring(last: &str) -> String {
    const RULES: usize = 250;
    let rule = |number: usize| match number + 1 {
        RULES => format!("r{number}: {last} ."),
        next => format!("r{number}: r{next} ."),
    };
    // 97 and 250 have no common divisor.
    let rules = (0..RULES).map(|place| rule(place * 97 % RULES));
    rules.collect::<Vec<_>>().join(" ")
}

/// Grammars of the greatest length, or one byte longer, of kinds that a reader
/// might find hard.
pub fn awkward() -> Vec<(&'static str, String)> {
    let mut grammars = Vec::new();
    for length in [4096, 4097] {
        let full = |start: &str, part: &str, end: &str| {
            let mut text = filled(length, start, part, end);
            text.push_str(&" ".repeat(length - text.len()));
            text
        };
        let deep = |depth: usize| format!("{}{}", "(".repeat(depth), ")".repeat(depth));
        let deepest = "(".repeat(16) + &")?".repeat(16) + ",";
        let too_deep = deep(17) + ",";
        let repeated = "('x'**".repeat(15) + "'y'" + &")".repeat(15) + ",";
        let comment = "{".repeat(16) + &"}".repeat(16);
        let too_deep_comment = "{".repeat(17) + &"}".repeat(17);
        grammars.extend([
            ("only spaces", full("", " ", "")),
            ("only open brackets", full("a:", "(", "")),
            ("only closed brackets", full("a:", ")", "")),
            ("only open braces", full("", "{", "")),
            ("open braces in a rule", full("a: ", "{", ".")),
            ("only full stops", full("", ".", "")),
            ("a name of full stops", full("a: a", ".", "")),
            ("only quotes", full("a: ", "'", ".")),
            ("brackets 16 deep", full("a:", &deepest, "'x'.")),
            ("brackets 17 deep", full("a:", &too_deep, ".")),
            (
                "separated repetitions 15 deep",
                full("a:", &repeated, "'x'."),
            ),
            ("comments 16 deep", full("a: ", &comment, "'x'.")),
            ("comments 17 deep", full("a: ", &too_deep_comment, "'x'.")),
            ("flat comments", full("a: ", "{}", "'x'.")),
            ("one long comment", full("a: 'x'. {", "c", "}")),
            ("one long string", full("a: '", "x", "'.")),
            ("one long string of quotes", full("a: '", "''", "'.")),
            ("one long name", full("", "a", ": 'x'.")),
            ("one long undefined name", full("a: ", "b", " .")),
            ("one long hex number", full("a: #", "0", "41.")),
            ("one long hex number above all", full("a: #1", "0", ".")),
            (
                "one long version",
                full("ixml version '", "1", "'. a: 'x'."),
            ),
            ("empty alternatives", full("a: ", ";", ".")),
            ("short literals", full("a: ", "'x',", "'x'.")),
            ("hex insertions", full("a: ", "+#A,", "'x'.")),
            ("optional literals", full("a: ", "'x'?,", "'x'.")),
            ("repetitions", full("a: ", "'x'++'y',", "'x'.")),
            ("sets", full("a: ", "[L],", "'x'.")),
            ("one set of classes", full("a: [", "L;", "L].")),
            ("one set of ranges", full("a: [", "'a'-'z';", "L].")),
            ("one set of unknown classes", full("a: [", "Xx;", "L].")),
            (
                "one exclusion of classes",
                full("a: ~[", "Zp;", "L;M;N;P;S;Z;C]; ."),
            ),
            (
                "one exclusion of ranges",
                full("a: ~[", "#0-#17f;", "#300-#36f;#203f]."),
            ),
            (
                "exclusions",
                padded(length, format!("a: {}.", ["~[#0-#17f]"; 300].join(","))),
            ),
            (
                "sets that match nothing",
                padded(length, format!("a: {}; .", ["[Cn]"; 500].join(","))),
            ),
            ("a chain of rules", padded(length, ring("'x'"))),
            ("a ring of rules", padded(length, ring("r0"))),
            ("uses of one name", full("a: ", "a,", "a .")),
            ("uses of one undefined name", full("a: ", "b,", "b .")),
            ("one rule again and again", full("", "a:. ", "")),
            ("rules", numbered(length, |number| format!("r{number}:. "))),
            (
                "rules that use the next",
                numbered(length, |number| format!("r{number}: r{} . ", number + 1)),
            ),
            (
                "rules that use the first",
                numbered(length, |number| format!("r{number}: r0 . ")),
            ),
            (
                "rules with long names",
                numbered(length, |number| format!("{}{number}:. ", "n".repeat(60))),
            ),
            (
                "rules with sets",
                numbered(length, |number| {
                    format!("rule{number}: 'a', rule0; ['b'-'y'; Nd]. ")
                }),
            ),
            ("accented letters", full("a: '", "é", "'.")),
            ("byte order marks", full("", "\u{FEFF}", "")),
        ]);
        for family in [
            gen::fields,
            gen::pairs,
            gen::copies,
            gen::stars,
            gen::runs,
            gen::chains,
        ] {
            for size in [511, 512] {
                let mut text = family(size);
                let missing = length.saturating_sub(text.len());
                text.push_str(&" ".repeat(missing));
                grammars.push(("a family at its full size", text));
            }
        }
    }
    for depth in [15, 16, 17] {
        let nest = |open: &str, middle: &str, close: &str| {
            format!("a: {}{middle}{}.", open.repeat(depth), close.repeat(depth))
        };
        grammars.extend([
            ("brackets", nest("(", "'x'", ")")),
            ("empty brackets", nest("(", "", ")")),
            ("comments", nest("{", "", "}")),
            ("brackets and comments", nest("({", "}'x'{", "})")),
            ("brackets as separators", nest("('x'**", "'y'", ")")),
            ("brackets before separators", nest("(", "'x'", "**'y')")),
            (
                "brackets in later alternatives",
                nest("(;'x',", "'x'", ";)"),
            ),
        ]);
    }
    grammars.push(("nothing", String::new()));
    grammars.push(("far too long", " ".repeat(1 << 20)));
    grammars
}

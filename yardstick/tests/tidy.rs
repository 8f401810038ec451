//! Tidy grammars: the layout's cases, and that made-up grammars read back.

use ixml_yardstick::gen::{self, Random, Style};
use ixml_yardstick::limits::GRAMMAR_BYTES;
use ixml_yardstick::{check, syntax, tidy};

const GRAMMARS: usize = 20_000;

/// The tidy text of an accepted grammar.
fn tidied(grammar: &str) -> String {
    let mut buffer = [7; GRAMMAR_BYTES];
    let answer = tidy(grammar.as_bytes(), &mut buffer);
    assert_eq!(answer.number, 0, "{grammar:?}");
    String::from_utf8(buffer[..answer.length].to_vec()).unwrap()
}

#[test]
fn layout() {
    for (grammar, text) in [
        ("-a={x}'b'|#0A,[L|'c']+.", "-a: \"b\"; #a, [L; \"c\"]+.\n"),
        ("a: ; \"x\".", "a: ; \"x\".\n"),
        ("a:.", "a: .\n"),
        ("a:'x'|.", "a: \"x\"; .\n"),
        ("a:(|'x').", "a: (; \"x\").\n"),
        ("a:((^'x')) .", "a: ((^\"x\")).\n"),
        ("a:'x'++ +'y'.", "a: \"x\"+++\"y\".\n"),
        ("a:'x'** (#000|#20).", "a: \"x\"**(#0; #20).\n"),
        ("a:'it''s \"x\"'.", "a: \"it's \"\"x\"\"\".\n"),
        (
            "a:- ~ [ #00A - 'z' | Nd ] , ^b? . ^ b=~ []*.",
            "a: -~[#a-\"z\"; Nd], ^b?.\n^b: ~[]*.\n",
        ),
        (
            "\u{FEFF}{y} ixml\nversion '1.0' . @a: 'x'.",
            "ixml version \"1.0\".\n@a: \"x\".\n",
        ),
    ] {
        assert_eq!(tidied(grammar), text);
    }
}

#[test]
fn made_up_grammars_read_back() {
    let mut random = Random::new(13);
    let mut accepted = 0;
    for number in 0..GRAMMARS {
        let style = Style::ALL[number % Style::ALL.len()];
        let grammar = gen::grammar(&mut random, style);
        if check(grammar.as_bytes()).number != 0 {
            continue;
        }
        accepted += 1;
        let text = tidied(&grammar);
        let tree = syntax::read(&grammar);
        assert_eq!(syntax::read(&text), tree, "{grammar:?}");
        assert_eq!(tidied(&text), text, "{grammar:?}");
        assert_eq!(
            check(text.as_bytes()),
            check(grammar.as_bytes()),
            "{grammar:?}"
        );
    }
    assert!(accepted > GRAMMARS / 4, "{accepted}");
}

//! Checking against the yardstick.

mod common;

use common::{grammars, on_small_stack, yardstick, Tally};
use ixml_yardstick::gen::Random;

const GRAMMARS: usize = 200_000;

/// Checks a grammar that lies between other bytes, of two kinds: what is read
/// behind its end must not sway the answer.
fn check(grammar: &[u8]) -> ixml::Answer {
    let between = |other: &[u8]| {
        let text = [other, grammar, other].concat();
        ixml::check(&text[other.len()..text.len() - other.len()])
    };
    let answer = between(b". ');]}. ");
    assert_eq!(between(b"\xFF(['{"), answer);
    answer
}

#[test]
fn made_up_grammars_agree_with_the_yardstick() {
    on_small_stack(|| {
        let mut random = Random::new(3);
        let mut tally = Tally::default();
        for _ in 0..GRAMMARS {
            let grammar = grammars::made_up(&mut random);
            let expected = yardstick(ixml_yardstick::check(&grammar));
            let text = String::from_utf8_lossy(&grammar);
            assert_eq!(check(&grammar), expected, "{text:?} {grammar:x?}");
            tally.add(expected);
        }
        tally.assert_each(0..=11, 100);
    });
}

#[test]
fn awkward_grammars_agree_with_the_yardstick() {
    on_small_stack(|| {
        let mut tally = Tally::default();
        for (kind, grammar) in grammars::awkward() {
            let grammar = grammar.as_bytes();
            let expected = yardstick(ixml_yardstick::check(grammar));
            assert_eq!(check(grammar), expected, "{kind}");
            tally.add(expected);
        }
        println!("{tally:?}");
    });
}

/// Every prefix of a few grammars, and every single byte in one place.
#[test]
fn prefixes_and_single_bytes_agree_with_the_yardstick() {
    const GRAMMARS: [&str; 3] = [
        "{c}ixml version \"1.0\". -a: (b. ; 'x')**[L; #41-'é'], ~[Nd]?, +#10fffd. b.=@b.++\"'\"|.",
        "\u{FEFF}a:{{}}'é''',^a*,-[#0-#ff].\r\n",
        "a: b.. b.: (((((((((((((((('x')))))))))))))))).",
    ];
    on_small_stack(|| {
        for grammar in GRAMMARS {
            let grammar = grammar.as_bytes();
            for length in 0..=grammar.len() {
                let prefix = &grammar[..length];
                let expected = yardstick(ixml_yardstick::check(prefix));
                assert_eq!(check(prefix), expected, "{prefix:x?}");
                for byte in 0..=u8::MAX {
                    let mut text = grammar.to_vec();
                    text.insert(length, byte);
                    let expected = yardstick(ixml_yardstick::check(&text));
                    assert_eq!(check(&text), expected, "{text:x?}");
                }
            }
        }
    });
}

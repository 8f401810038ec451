//! The grammar reader against ixml's own grammar: a text is refused as 4
//! exactly when that grammar does not derive it. The reader and the engine
//! check each other here.

mod common;

use common::{check_number, read_answer, IXML};
use ixml_yardstick::gen::{self, Random, Style};

const TEXTS: usize = 4000;
const LONGEST: usize = 120;

/// Short texts that show much of the language.
const EXAMPLES: [&str; 16] = [
    "a: b. . b.: \"x\".",
    "a: b.**c. b.: \"x\". c: \",\".",
    "a: b.{c}c: \"x\". b: \"y\".",
    "ixml version \"1.0\".a: \"x\".",
    "ixml{}version{}\"2\"{}.{}a:.",
    "ixml: \"x\". b: (ixml; -ixml)?.",
    "a: - {c} \"x\", ~ [], \"x\" *.",
    "a: \"x\"+++\"y\", +#41, #41+.",
    "{\"}a: {{x}}.",
    "a: \"x\";;\"y\"|, ().",
    "a: ['''' - \"z\"; #20-#7E | Lu; \"ab\"].",
    "@a = ^b, @b, -b. b: -\"x\"++(b; c)?. c: .",
    "a: (\"x\"*)+, [L]**[Nd].",
    "a: b.. b.: 'it''s'. b: \"\"\"\".",
    "a: b.-c, b.c- .b.-c: . b.c-: .",
    "a-b.c: _1\u{B7}. _1\u{B7}: -[Zs;\"\u{A0}\"]\u{A0}.",
];

fn assert_agreement(text: &str) -> bool {
    let in_language = check_number(text) != 4;
    let answer = read_answer(IXML, text);
    assert!([0, 16, 29].contains(&answer.number), "{text}");
    assert_eq!(in_language, answer.number != 16, "{text}");
    in_language
}

#[test]
fn reader_accepts_what_the_grammar_derives() {
    let mut random = Random::new(1);
    let mut accepted = 0;
    let mut count = 0;
    while count < TEXTS {
        let mut text = if random.chance(50) {
            random.pick(&EXAMPLES).to_string()
        } else {
            let style = *random.pick(&Style::ALL);
            gen::grammar(&mut random, style)
        };
        for _ in 0..random.below(3) {
            text = gen::damage(&mut random, &text);
        }
        if !text.is_empty() && text.chars().count() <= LONGEST {
            count += 1;
            accepted += usize::from(assert_agreement(&text));
        }
    }
    println!("{accepted} of {TEXTS} accepted");
    assert!(accepted > TEXTS / 5 && accepted < TEXTS * 4 / 5);
}

#[test]
fn the_complete_grammar_reads_its_own_first_lines() {
    assert_eq!(check_number(IXML), 0);
    let six: Vec<&str> = IXML.lines().take(6).collect();
    let answer = read_answer(IXML, &six.join("\n"));
    assert_eq!((answer.number, answer.ambiguous), (0, false));
}

//! What the law of crate audit says of a result's bytes, beside a real XML
//! parser: where a grammar has no `@`, no `-` on a terminal and no insertion,
//! the text between the tags is the record.

mod common;

use std::path::Path;
use std::process::Command;

use common::{on_small_stack, vectors, Converting, Job, Lender};
use ixml_yardstick::syntax::{self, Alternatives, Factor, Mark, Term};

/// The law's relation: a tag runs from `<` to the next `>`, a reference from
/// `&` to its `;`, and any other byte stands for itself.
fn between(xml: &str) -> Option<String> {
    let mut text = String::new();
    let mut rest = xml;
    while let Some(first) = rest.chars().next() {
        rest = match first {
            '<' => &rest[rest.find('>')? + 1..],
            '&' => {
                let end = rest.find(';')?;
                text.push(reference(&rest[1..end])?);
                &rest[end + 1..]
            }
            _ => {
                text.push(first);
                &rest[first.len_utf8()..]
            }
        };
    }
    Some(text)
}

fn reference(name: &str) -> Option<char> {
    Some(match name {
        "lt" => '<',
        "gt" => '>',
        "amp" => '&',
        "#xD" => '\r',
        _ => return None,
    })
}

/// Neither an attribute nor a deleted terminal nor an insertion.
fn keeps_all(grammar: &[u8]) -> bool {
    let text = std::str::from_utf8(grammar).expect("an accepted grammar");
    let text = text.strip_prefix('\u{FEFF}').unwrap_or(text);
    let grammar = syntax::read(text).expect("an accepted grammar");
    let plain = |rule: &syntax::Rule| {
        rule.mark != Some(Mark::Attribute) && alternatives(&rule.alternatives)
    };
    grammar.rules.iter().all(plain)
}

fn alternatives(alternatives: &Alternatives) -> bool {
    alternatives.iter().flatten().all(|term| match term {
        Term::Once(one) | Term::Option(one) | Term::Star(one) | Term::Plus(one) => factor(one),
        Term::StarSeparated(one, between) | Term::PlusSeparated(one, between) => {
            factor(one) && factor(between)
        }
    })
}

fn factor(one: &Factor) -> bool {
    match one {
        Factor::Literal { mark, .. } | Factor::Set { mark, .. } => *mark != Some(Mark::Deleted),
        Factor::Insertion(_) => false,
        Factor::Nonterminal { mark, .. } => *mark != Some(Mark::Attribute),
        Factor::Bracket(inner) => alternatives(inner),
    }
}

/// The documents of vectors and made-up jobs to which the law applies, with
/// their records.
fn audited() -> Vec<(String, String)> {
    let of_vectors = vectors::of("convert").into_iter().map(|vector| vector.job);
    let awkward = ["<&>\"'\r\n\t]]>", "\r", "é\u{17F}\u{301}", ""]
        .map(|record| Job::new("a: b*. -b: c?, ~[\"!\"]. c: \"!\".", record));
    let mut lender: Lender<Converting> = Lender::new(1 << 17);
    let mut found = Vec::new();
    for job in of_vectors.chain(awkward) {
        let (answer, xml) = lender.agree(&job, 5);
        if answer.number == 0 && keeps_all(&job.grammar) {
            let record = String::from_utf8(job.record).expect("a record that was read");
            found.push((String::from_utf8(xml).expect("XML in UTF-8"), record));
        }
    }
    found
}

#[test]
fn the_text_between_the_tags_is_the_record() {
    let documents = on_small_stack(audited);
    assert!(documents.len() > 100, "{}", documents.len());
    for (xml, record) in documents {
        assert_eq!(between(&xml).as_deref(), Some(&*record), "{xml}");
    }
}

/// xmllint finds the same text in them.
#[test]
#[cfg_attr(
    not(xmllint),
    ignore = "xmllint (Debian's libxml2-utils) is not installed"
)]
fn xmllint_finds_the_record() {
    let documents = on_small_stack(audited);
    let xml: String = documents
        .iter()
        .map(|(xml, _)| format!("{xml}<end/>"))
        .collect();
    let text: String = documents.iter().map(|(_, record)| &**record).collect();
    let file = Path::new(env!("CARGO_TARGET_TMPDIR")).join("audit.xml");
    std::fs::write(&file, format!("<all>{xml}</all>")).expect("a file");
    let output = Command::new("xmllint")
        .args(["--huge", "--xpath", "string(/all)"])
        .arg(&file)
        .output()
        .expect("xmllint");
    assert!(output.status.success());
    let found = String::from_utf8(output.stdout).expect("text");
    assert!(found.strip_suffix('\n') == Some(&*text));
}

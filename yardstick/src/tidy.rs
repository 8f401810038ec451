//! A grammar in the one layout: a line for each rule, the prolog's first.

use crate::syntax::{
    Alternatives, Bound, Factor, Grammar, Hex, Mark, Member, Rule, Set, Term, Text,
};

/// The tidy text.
pub fn text(grammar: &Grammar) -> String {
    let version = grammar.version.iter();
    let prolog = version.map(|version| format!("ixml version {}.\n", quoted(version)));
    prolog.chain(grammar.rules.iter().map(rule)).collect()
}

fn rule(rule: &Rule) -> String {
    let mark = sign(rule.mark);
    format!(
        "{mark}{}: {}.\n",
        rule.name,
        alternatives(&rule.alternatives)
    )
}

fn sign(mark: Option<Mark>) -> &'static str {
    match mark {
        None => "",
        Some(Mark::Element) => "^",
        Some(Mark::Attribute) => "@",
        Some(Mark::Deleted) => "-",
    }
}

fn joined<T>(parts: &[T], text: impl Fn(&T) -> String, separator: &str) -> String {
    let texts: Vec<String> = parts.iter().map(text).collect();
    texts.join(separator)
}

fn alternatives(alternatives: &Alternatives) -> String {
    joined(alternatives, |terms| joined(terms, term, ", "), "; ")
}

fn term(term: &Term) -> String {
    match term {
        Term::Once(f) => factor(f),
        Term::Option(f) => format!("{}?", factor(f)),
        Term::Star(f) => format!("{}*", factor(f)),
        Term::Plus(f) => format!("{}+", factor(f)),
        Term::StarSeparated(f, separator) => format!("{}**{}", factor(f), factor(separator)),
        Term::PlusSeparated(f, separator) => format!("{}++{}", factor(f), factor(separator)),
    }
}

fn factor(factor: &Factor) -> String {
    match factor {
        Factor::Literal { mark, text } => format!("{}{}", sign(*mark), characters(text)),
        Factor::Set { mark, set } => format!("{}{}", sign(*mark), members(set)),
        Factor::Insertion(text) => format!("+{}", characters(text)),
        Factor::Nonterminal { mark, name } => format!("{}{name}", sign(*mark)),
        Factor::Bracket(inner) => format!("({})", alternatives(inner)),
    }
}

fn members(set: &Set) -> String {
    let tilde = if set.excluded { "~" } else { "" };
    format!("{tilde}[{}]", joined(&set.members, member, "; "))
}

fn member(member: &Member) -> String {
    match member {
        Member::Text(text) => characters(text),
        Member::Range(from, to, _) => format!("{}-{}", bound(*from), bound(*to)),
        Member::Class(code) => code.to_string(),
    }
}

fn bound(bound: Bound) -> String {
    match bound {
        Bound::Character(character) => quoted(&[character]),
        Bound::Encoded(hex) => encoded(hex),
    }
}

fn characters(text: &Text) -> String {
    match text {
        Text::Quoted(string) => quoted(string),
        Text::Encoded(hex) => encoded(*hex),
    }
}

fn encoded(hex: Hex) -> String {
    format!("#{:x}", hex.code())
}

/// A string in double quotes, those inside doubled.
fn quoted(string: &[char]) -> String {
    let string: String = string.iter().collect();
    format!("\"{}\"", string.replace('"', "\"\""))
}

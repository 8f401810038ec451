//! What a grammar must keep beyond its syntax, and its size.

use std::collections::HashSet;

use crate::category;
use crate::limits;
use crate::refusal::Refusal;
use crate::syntax::{
    each_factor, Alternatives, Bound, Factor, Grammar, Hex, Left, Member, Set, Term, Text,
};

/// Refusals 5 to 11. Each of 5 to 10 is judged over the whole text, so the
/// lowest fault anywhere is given, at the first of its places.
pub fn check(grammar: &Grammar, text: &str) -> Result<(), Refusal> {
    if let Some(fault) = faults(grammar, text).into_iter().min() {
        return Err(fault);
    }
    if size(grammar) > limits::GRAMMAR_SIZE {
        return Err(Refusal::GrammarTooLarge);
    }
    Ok(())
}

/// The faults found so far, and the text that they are in.
struct Faults<'t> {
    text: &'t str,
    found: Vec<Refusal>,
}

impl<'t> Faults<'t> {
    /// A fault where so many bytes are left, by the characters before it.
    fn add(&mut self, fault: fn(usize) -> Refusal, Left(left): Left) {
        let before = &self.text[..self.text.len() - left];
        self.found.push(fault(before.chars().count()));
    }

    /// A fault of a part of the text.
    fn add_part(&mut self, fault: fn(usize) -> Refusal, part: &str) {
        let before = part.as_ptr() as usize - self.text.as_ptr() as usize;
        self.add(fault, Left(self.text.len() - before));
    }

    fn hex(&mut self, hex: Hex) {
        if hex.is_too_large() {
            self.add(Refusal::HexTooLarge, hex.1);
        } else if hex.is_no_character() {
            self.add(Refusal::HexNoCharacter, hex.1);
        }
    }

    fn text(&mut self, text: &Text) {
        if let Text::Encoded(hex) = text {
            self.hex(*hex);
        }
    }

    fn set(&mut self, set: &Set) {
        for member in &set.members {
            match member {
                Member::Text(text) => self.text(text),
                Member::Range(from, to, left) => {
                    for bound in [from, to] {
                        if let Bound::Encoded(hex) = bound {
                            self.hex(*hex);
                        }
                    }
                    if from.code() > to.code() {
                        self.add(Refusal::BackwardRange, *left);
                    }
                }
                Member::Class(code) if category::class(code).is_none() => {
                    self.add_part(Refusal::UnknownClass, code);
                }
                Member::Class(_) => {}
            }
        }
    }
}

/// Every fault among 5 to 10, in no particular order.
fn faults(grammar: &Grammar, text: &str) -> Vec<Refusal> {
    let found = Vec::new();
    let mut faults = Faults { text, found };
    let mut defined = HashSet::with_capacity(grammar.rules.len());
    for rule in &grammar.rules {
        if !defined.insert(rule.name) {
            faults.add_part(Refusal::RepeatedRule, rule.name);
        }
    }
    for rule in &grammar.rules {
        each_factor(&rule.alternatives, &mut |factor| match factor {
            Factor::Nonterminal { name, .. } if !defined.contains(name) => {
                faults.add_part(Refusal::UndefinedName, name);
            }
            Factor::Literal { text, .. } | Factor::Insertion(text) => faults.text(text),
            Factor::Set { set, .. } => faults.set(set),
            Factor::Nonterminal { .. } | Factor::Bracket(_) => {}
        });
    }
    faults.found
}

/// The sum of symbols plus 1 over the alternatives of the plain rules.
pub fn size(grammar: &Grammar) -> usize {
    let rules = grammar.rules.iter();
    rules
        .map(|rule| alternatives_size(&rule.alternatives))
        .sum()
}

fn alternatives_size(alternatives: &Alternatives) -> usize {
    let symbols: usize = alternatives.iter().map(Vec::len).sum();
    let extra: usize = alternatives.iter().flatten().map(extra_size).sum();
    symbols + alternatives.len() + extra
}

/// The size of the extra rules that a term makes.
fn extra_size(term: &Term) -> usize {
    const EMPTY: usize = 1;
    const ONE: usize = 2;
    const TWO: usize = 3;
    const THREE: usize = 4;
    match term {
        Term::Once(f) => factor_size(f),
        Term::Option(f) => ONE + EMPTY + factor_size(f),
        Term::Star(f) => TWO + EMPTY + factor_size(f),
        Term::Plus(f) => TWO + (TWO + EMPTY) + factor_size(f),
        Term::PlusSeparated(f, s) => TWO + (THREE + EMPTY) + factor_size(f) + factor_size(s),
        Term::StarSeparated(f, s) => {
            (ONE + EMPTY) + TWO + (THREE + EMPTY) + factor_size(f) + factor_size(s)
        }
    }
}

/// The size of the rule that a bracket makes; other factors make none.
fn factor_size(factor: &Factor) -> usize {
    match factor {
        Factor::Bracket(alternatives) => alternatives_size(alternatives),
        _ => 0,
    }
}

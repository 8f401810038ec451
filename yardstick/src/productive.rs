//! Rules that derive no text at all.

use crate::lists::Lists;
use crate::plain::{Plain, Symbol};

/// Whether some rule, written or made, derives no text of characters that a
/// record may hold. An alternative waits for the rule of the first symbol that
/// is not known to derive one, so each symbol is passed once.
pub fn some_unproductive(plain: &Plain) -> bool {
    let mut found = vec![false; plain.rules.len()];
    let mut waiting = Lists::new(plain.rules.len());
    let mut ready: Vec<(usize, &[Symbol])> = Vec::new();
    for (number, rule) in plain.rules.iter().enumerate() {
        ready.extend(
            rule.alternatives
                .iter()
                .map(|symbols| (number, &symbols[..])),
        );
    }
    while let Some((rule, symbols)) = ready.pop() {
        match next(plain, &found, symbols) {
            Next::Dead => {}
            Next::Rule(needed, rest) => waiting.push(needed, (rule, rest)),
            Next::End if found[rule] => {}
            Next::End => {
                found[rule] = true;
                ready.extend(waiting.iter(rule));
            }
        }
    }
    found.contains(&false)
}

/// What an alternative comes to.
enum Next<'p> {
    /// A terminal that matches nothing.
    Dead,
    /// A rule that is not found yet, and what stands after it.
    Rule(usize, &'p [Symbol]),
    /// All of it derives some text.
    End,
}

fn next<'p>(plain: &Plain, found: &[bool], symbols: &'p [Symbol]) -> Next<'p> {
    for (at, symbol) in symbols.iter().enumerate() {
        match *symbol {
            Symbol::Terminal { terminal, .. } if !plain.terminals[terminal].is_live() => {
                return Next::Dead;
            }
            Symbol::Nonterminal { rule, .. } if !found[rule] => {
                return Next::Rule(rule, &symbols[at + 1..]);
            }
            _ => {}
        }
    }
    Next::End
}

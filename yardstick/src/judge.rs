//! Left parses that others made.

use crate::plain::{Plain, Symbol};

/// Whether a list of numbers, used to its last, is the left parse of a derivation
/// of the whole record.
pub fn accepts(plain: &Plain, record: &[char], list: &[u32]) -> bool {
    walk(plain, record, list).unwrap_or(false)
}

/// `None` where the walk cannot go on.
fn walk(plain: &Plain, record: &[char], list: &[u32]) -> Option<bool> {
    let mut numbers = list.iter();
    let mut enter = |rule: usize| {
        let number = usize::try_from(*numbers.next()?).ok()?;
        let symbols = plain.rules[rule].alternatives.get(number)?;
        Some(symbols.iter())
    };
    let mut open = vec![enter(0)?];
    let mut rest = record;
    while let Some(symbols) = open.last_mut() {
        match symbols.next() {
            None => drop(open.pop()),
            Some(&Symbol::Terminal { terminal, .. }) => {
                let terminal = &plain.terminals[terminal];
                if !terminal.matches(rest) {
                    return None;
                }
                rest = &rest[terminal.length()..];
            }
            Some(Symbol::Insertion(_)) => {}
            Some(&Symbol::Nonterminal { rule, .. }) => open.push(enter(rule)?),
        }
    }
    Some(rest.is_empty() && numbers.next().is_none())
}

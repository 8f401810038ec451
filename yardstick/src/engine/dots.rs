//! Dot positions: the places between the symbols of all alternatives.

use std::ops::Range;

use super::places::{Places, WORDS};
use crate::lists::Lists;
use crate::plain::{Plain, Symbol, Terminal};

/// What stands behind a dot.
#[derive(Clone, Copy, Debug)]
pub enum Dot<const W: usize = WORDS> {
    /// A terminal with its length and the places of the record where it matches.
    Terminal {
        matches: Places<W>,
        length: usize,
    },
    Insertion,
    Nonterminal(usize),
    /// The end of an alternative of this rule.
    End(usize),
}

/// The dot positions of a grammar, numbered through; an alternative's dots
/// are consecutive. There are as many as the grammar's size.
#[derive(Clone, Debug)]
pub struct Dots<const W: usize = WORDS> {
    pub all: Vec<Dot<W>>,
    /// For each alternative the dots before its symbols; the range ends at the
    /// dot that stands at the alternative's end.
    ranges: Vec<Range<usize>>,
    /// For each rule its part of `ranges`.
    rules: Vec<Range<usize>>,
}

impl<const W: usize> Dots<W> {
    pub fn new(plain: &Plain, record: &[char]) -> Dots<W> {
        let terminals: Vec<Dot<W>> = plain
            .terminals
            .iter()
            .map(|terminal| Dot::Terminal {
                matches: matches(terminal, record),
                length: terminal.length(),
            })
            .collect();
        let mut dots = Dots {
            all: Vec::with_capacity(plain.size()),
            ranges: Vec::new(),
            rules: Vec::with_capacity(plain.rules.len()),
        };
        for (number, rule) in plain.rules.iter().enumerate() {
            let before = dots.ranges.len();
            for symbols in &rule.alternatives {
                let first = dots.all.len();
                dots.all.extend(symbols.iter().map(|symbol| match *symbol {
                    Symbol::Terminal { terminal, .. } => terminals[terminal],
                    Symbol::Insertion(_) => Dot::Insertion,
                    Symbol::Nonterminal { rule, .. } => Dot::Nonterminal(rule),
                }));
                dots.ranges.push(first..dots.all.len());
                dots.all.push(Dot::End(number));
            }
            dots.rules.push(before..dots.ranges.len());
        }
        dots
    }

    /// How many rules there are.
    pub fn rules(&self) -> usize {
        self.rules.len()
    }

    /// For each alternative of a rule the dots before its symbols; the range
    /// ends at the dot that stands at the alternative's end.
    pub fn alternatives(&self, rule: usize) -> &[Range<usize>] {
        &self.ranges[self.rules[rule].clone()]
    }

    /// For each rule the dots in front of its uses.
    pub fn uses(&self) -> Lists<usize> {
        let mut uses = Lists::new(self.rules());
        for (dot, behind) in self.all.iter().enumerate().rev() {
            if let Dot::Nonterminal(rule) = *behind {
                uses.push(rule, dot);
            }
        }
        uses
    }
}

fn matches<const W: usize>(terminal: &Terminal, record: &[char]) -> Places<W> {
    let mut places = Places::NONE;
    for place in 0..record.len() {
        if terminal.matches(&record[place..]) {
            places.insert(place);
        }
    }
    places
}

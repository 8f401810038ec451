//! Plain rules: repetitions and brackets become extra rules, marked deleted.

use std::collections::HashMap;

use crate::alphabet;
use crate::category;
use crate::charset::CharSet;
use crate::syntax::{Alternatives, Factor, Grammar, Mark, Member, Set, Term, Text};

/// A grammar without repetitions and brackets. The root is rule 0.
#[derive(Debug)]
pub struct Plain<'t> {
    pub rules: Vec<Rule<'t>>,
    pub terminals: Vec<Terminal>,
    pub insertions: Vec<Vec<char>>,
    /// The rules as they stand in the main table: behind those that its body
    /// makes comes each written one.
    pub layout: Vec<usize>,
}

#[derive(Debug)]
pub struct Rule<'t> {
    /// Empty for an extra rule, which is never written.
    pub name: &'t str,
    pub mark: Mark,
    pub alternatives: Vec<Vec<Symbol>>,
}

#[derive(Clone, Copy, Debug, PartialEq, Eq)]
pub enum Symbol {
    /// An entry of `Plain::terminals`.
    Terminal { terminal: usize, deleted: bool },
    /// An entry of `Plain::insertions`.
    Insertion(usize),
    /// A rule, with the mark at its use.
    Nonterminal { rule: usize, mark: Option<Mark> },
}

#[derive(Debug)]
pub enum Terminal {
    Literal(Vec<char>),
    Set(CharSet),
}

impl Terminal {
    /// How many characters it takes up.
    pub fn length(&self) -> usize {
        match self {
            Terminal::Literal(string) => string.len(),
            Terminal::Set(_) => 1,
        }
    }

    /// Whether it matches some text of characters that a record may hold.
    pub fn is_live(&self) -> bool {
        match self {
            Terminal::Literal(string) => string.iter().all(|&c| alphabet::contains(c)),
            Terminal::Set(set) => !set.is_empty(),
        }
    }

    /// Whether it matches at the start of these characters.
    pub fn matches(&self, characters: &[char]) -> bool {
        match self {
            Terminal::Literal(string) => {
                // Most literals differ in the first character.
                string
                    .first()
                    .is_none_or(|first| characters.first() == Some(first))
                    && characters.starts_with(string)
            }
            Terminal::Set(set) => characters.first().is_some_and(|&first| set.contains(first)),
        }
    }
}

impl Plain<'_> {
    /// The sum of symbols plus 1 over all alternatives.
    pub fn size(&self) -> usize {
        let alternatives = self.rules.iter().flat_map(|rule| &rule.alternatives);
        alternatives.map(|symbols| symbols.len() + 1).sum()
    }

    /// For each rule its position in the main table: that of the end of its last
    /// alternative.
    pub fn names(&self) -> Vec<usize> {
        let mut names = vec![0; self.rules.len()];
        let mut dots = 0;
        for &rule in &self.layout {
            let alternatives = self.rules[rule].alternatives.iter();
            dots += alternatives.map(|symbols| symbols.len() + 1).sum::<usize>();
            names[rule] = dots - 1;
        }
        names
    }
}

/// The plain rules of a grammar that passed the static checks.
pub fn plain<'t>(grammar: &Grammar<'t>) -> Plain<'t> {
    let names = grammar.rules.iter().enumerate();
    let mut builder = Builder {
        numbers: names.map(|(number, rule)| (rule.name, number)).collect(),
        rules: Vec::with_capacity(grammar.rules.len()),
        terminals: Vec::new(),
        insertions: Vec::new(),
    };
    for rule in &grammar.rules {
        builder.rules.push(Rule {
            name: rule.name,
            mark: rule.mark.unwrap_or(Mark::Element),
            alternatives: Vec::new(),
        });
    }
    let mut layout = Vec::with_capacity(grammar.rules.len());
    for (number, rule) in grammar.rules.iter().enumerate() {
        let made = builder.rules.len();
        builder.rules[number].alternatives = builder.alternatives(&rule.alternatives);
        layout.extend(made..builder.rules.len());
        layout.push(number);
    }
    Plain {
        rules: builder.rules,
        terminals: builder.terminals,
        insertions: builder.insertions,
        layout,
    }
}

struct Builder<'t> {
    numbers: HashMap<&'t str, usize>,
    rules: Vec<Rule<'t>>,
    terminals: Vec<Terminal>,
    insertions: Vec<Vec<char>>,
}

impl<'t> Builder<'t> {
    fn alternatives(&mut self, alternatives: &Alternatives<'t>) -> Vec<Vec<Symbol>> {
        let mut plain = Vec::with_capacity(alternatives.len());
        for terms in alternatives {
            plain.push(terms.iter().map(|term| self.term(term)).collect());
        }
        plain
    }

    fn term(&mut self, term: &Term<'t>) -> Symbol {
        match term {
            Term::Once(factor) => self.factor(factor),
            Term::Option(factor) => {
                let f = self.factor(factor);
                self.extra(vec![vec![f], vec![]])
            }
            Term::Star(factor) => {
                let f = self.factor(factor);
                self.star(&[f])
            }
            Term::Plus(factor) => {
                let f = self.factor(factor);
                let star = self.star(&[f]);
                self.extra(vec![vec![f, star]])
            }
            Term::PlusSeparated(factor, separator) => self.plus_separated(factor, separator),
            Term::StarSeparated(factor, separator) => {
                let plus = self.plus_separated(factor, separator);
                self.extra(vec![vec![plus], vec![]])
            }
        }
    }

    fn plus_separated(&mut self, factor: &Factor<'t>, separator: &Factor<'t>) -> Symbol {
        let f = self.factor(factor);
        let separator = self.factor(separator);
        let rest = self.star(&[separator, f]);
        self.extra(vec![vec![f, rest]])
    }

    /// A rule of the repeated symbols and then itself, or of nothing.
    fn star(&mut self, repeated: &[Symbol]) -> Symbol {
        let star = self.extra(vec![Vec::with_capacity(repeated.len() + 1), vec![]]);
        let last = self.rules.len() - 1;
        let first = &mut self.rules[last].alternatives[0];
        first.extend(repeated);
        first.push(star);
        star
    }

    fn extra(&mut self, alternatives: Vec<Vec<Symbol>>) -> Symbol {
        let rule = self.rules.len();
        self.rules.push(Rule {
            name: "",
            mark: Mark::Deleted,
            alternatives,
        });
        Symbol::Nonterminal { rule, mark: None }
    }

    fn factor(&mut self, factor: &Factor<'t>) -> Symbol {
        match factor {
            Factor::Literal { mark, text } => {
                self.terminal(Terminal::Literal(characters(text)), *mark)
            }
            Factor::Set { mark, set } => self.terminal(Terminal::Set(char_set(set)), *mark),
            Factor::Insertion(text) => {
                self.insertions.push(characters(text));
                Symbol::Insertion(self.insertions.len() - 1)
            }
            Factor::Nonterminal { mark, name } => Symbol::Nonterminal {
                rule: self.numbers[name],
                mark: *mark,
            },
            Factor::Bracket(alternatives) => {
                let alternatives = self.alternatives(alternatives);
                self.extra(alternatives)
            }
        }
    }

    fn terminal(&mut self, terminal: Terminal, mark: Option<Mark>) -> Symbol {
        self.terminals.push(terminal);
        let terminal = self.terminals.len() - 1;
        let deleted = mark == Some(Mark::Deleted);
        Symbol::Terminal { terminal, deleted }
    }
}

fn characters(text: &Text) -> Vec<char> {
    match text {
        Text::Quoted(string) => string.clone(),
        Text::Encoded(hex) => char::from_u32(hex.code()).into_iter().collect(),
    }
}

fn char_set(set: &Set) -> CharSet {
    let mut included = CharSet::EMPTY;
    for member in &set.members {
        match member {
            Member::Text(Text::Quoted(string)) => {
                for &character in string {
                    included.insert(character as u32);
                }
            }
            Member::Text(Text::Encoded(hex)) => included.insert(hex.code()),
            Member::Range(from, to, _) => included.insert_range(from.code(), to.code()),
            Member::Class(code) => {
                included = included.union(category::class(code).unwrap_or(CharSet::EMPTY));
            }
        }
    }
    if set.excluded {
        included.complement()
    } else {
        included
    }
}

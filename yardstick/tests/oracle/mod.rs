//! A slow second opinion on small jobs, straight from the definitions.
//!
//! It shares the grammar's syntax tree with the library and nothing else: it
//! makes its own plain rules, lists all ways of a node by trying every list of
//! child ends, counts derivations by height, and writes XML by recursion.

use ixml_yardstick::category;
use ixml_yardstick::syntax::{Alternatives, Factor, Grammar, Mark, Member, Set, Term, Text};

#[derive(Clone)]
enum Symbol {
    Literal(Vec<char>, bool),
    Set(Vec<char>, bool),
    Insertion(Vec<char>),
    Rule(usize, Option<Mark>),
}

struct Rule {
    name: String,
    mark: Mark,
    alternatives: Vec<Vec<Symbol>>,
}

/// One alternative of a node and the end places of its children.
type Way = (usize, Vec<usize>);

pub struct Oracle {
    rules: Vec<Rule>,
    record: Vec<char>,
    /// The least height of a rule from a start to an end.
    heights: Vec<Vec<Vec<Option<usize>>>>,
}

pub struct Outcome {
    pub numbers: Vec<u32>,
    pub ambiguous: bool,
    pub xml: Result<String, u32>,
}

fn characters(text: &Text) -> Vec<char> {
    match text {
        Text::Quoted(string) => string.clone(),
        Text::Encoded(hex) => vec![char::from_u32(hex.code()).unwrap()],
    }
}

fn in_class(code: &str, character: char) -> bool {
    let category = category(character as u32).unwrap().code();
    match code {
        "LC" => ["Lu", "Ll", "Lt"].contains(&category),
        _ => category == code || category[..1] == *code,
    }
}

fn in_member(member: &Member, character: char) -> bool {
    let value = character as u32;
    match member {
        Member::Text(text) => characters(text).contains(&character),
        Member::Range(from, to, _) => from.code() <= value && value <= to.code(),
        Member::Class(code) => in_class(code, character),
    }
}

/// The characters that a record may hold.
fn alphabet() -> impl Iterator<Item = char> {
    let codes = (0..=0x17F).chain(0x300..=0x36F).chain(0x203F..=0x2040);
    codes.map(|code| char::from_u32(code).unwrap())
}

fn members(set: &Set) -> Vec<char> {
    alphabet()
        .filter(|&c| set.members.iter().any(|member| in_member(member, c)) != set.excluded)
        .collect()
}

impl Oracle {
    pub fn new(grammar: &Grammar, record: &str) -> Oracle {
        let mut oracle = Oracle {
            rules: Vec::new(),
            record: record.chars().collect(),
            heights: Vec::new(),
        };
        for rule in &grammar.rules {
            oracle.rules.push(Rule {
                name: rule.name.to_string(),
                mark: rule.mark.unwrap_or(Mark::Element),
                alternatives: Vec::new(),
            });
        }
        let names: Vec<&str> = grammar.rules.iter().map(|rule| rule.name).collect();
        for (number, rule) in grammar.rules.iter().enumerate() {
            oracle.rules[number].alternatives = oracle.plain(&names, &rule.alternatives);
        }
        oracle.fill_heights();
        oracle
    }

    pub fn size(&self) -> usize {
        let alternatives = self.rules.iter().flat_map(|rule| &rule.alternatives);
        alternatives.map(|symbols| symbols.len() + 1).sum()
    }

    /// Whether some rule derives no text: rules that are known to derive one
    /// are added until none is.
    pub fn is_unproductive(&self) -> bool {
        let mut known: Vec<usize> = Vec::new();
        loop {
            let yields = |symbol: &Symbol| match symbol {
                Symbol::Literal(string, _) => string.iter().all(|&c| alphabet().any(|d| c == d)),
                Symbol::Set(members, _) => !members.is_empty(),
                Symbol::Insertion(_) => true,
                Symbol::Rule(rule, _) => known.contains(rule),
            };
            let some = |rule: &usize| {
                let mut alternatives = self.rules[*rule].alternatives.iter();
                alternatives.any(|symbols| symbols.iter().all(yields))
            };
            let more: Vec<usize> = (0..self.rules.len()).filter(some).collect();
            if more == known {
                return known.len() < self.rules.len();
            }
            known = more;
        }
    }

    fn plain(&mut self, names: &[&str], alternatives: &Alternatives) -> Vec<Vec<Symbol>> {
        let mut plain = Vec::new();
        for terms in alternatives {
            let mut symbols = Vec::new();
            for term in terms {
                symbols.push(self.term(names, term));
            }
            plain.push(symbols);
        }
        plain
    }

    fn extra(&mut self, alternatives: Vec<Vec<Symbol>>) -> Symbol {
        self.rules.push(Rule {
            name: String::new(),
            mark: Mark::Deleted,
            alternatives,
        });
        Symbol::Rule(self.rules.len() - 1, None)
    }

    fn term(&mut self, names: &[&str], term: &Term) -> Symbol {
        match term {
            Term::Once(f) => self.factor(names, f),
            Term::Option(f) => {
                let f = self.factor(names, f);
                self.extra(vec![vec![f], vec![]])
            }
            Term::Star(f) => {
                let f = self.factor(names, f);
                let same = Symbol::Rule(self.rules.len(), None);
                self.extra(vec![vec![f, same], vec![]])
            }
            Term::Plus(f) => {
                let f = self.factor(names, f);
                let same = Symbol::Rule(self.rules.len(), None);
                let star = self.extra(vec![vec![f.clone(), same], vec![]]);
                self.extra(vec![vec![f, star]])
            }
            Term::PlusSeparated(f, s) => self.separated(names, f, s),
            Term::StarSeparated(f, s) => {
                let plus = self.separated(names, f, s);
                self.extra(vec![vec![plus], vec![]])
            }
        }
    }

    fn separated(&mut self, names: &[&str], factor: &Factor, separator: &Factor) -> Symbol {
        let f = self.factor(names, factor);
        let s = self.factor(names, separator);
        let same = Symbol::Rule(self.rules.len(), None);
        let rest = self.extra(vec![vec![s, f.clone(), same], vec![]]);
        self.extra(vec![vec![f, rest]])
    }

    fn factor(&mut self, names: &[&str], factor: &Factor) -> Symbol {
        match factor {
            Factor::Literal { mark, text } => {
                Symbol::Literal(characters(text), *mark == Some(Mark::Deleted))
            }
            Factor::Set { mark, set } => Symbol::Set(members(set), *mark == Some(Mark::Deleted)),
            Factor::Insertion(text) => Symbol::Insertion(characters(text)),
            Factor::Nonterminal { mark, name } => {
                Symbol::Rule(names.iter().position(|n| n == name).unwrap(), *mark)
            }
            Factor::Bracket(alternatives) => {
                let alternatives = self.plain(names, alternatives);
                self.extra(alternatives)
            }
        }
    }

    /// Whether a symbol derives a span, with a rule's answer given.
    fn derives(
        &self,
        symbol: &Symbol,
        start: usize,
        end: usize,
        rule_derives: &dyn Fn(usize, usize, usize) -> bool,
    ) -> bool {
        let span = &self.record[start..end];
        match symbol {
            Symbol::Literal(string, _) => span == string,
            Symbol::Set(members, _) => span.len() == 1 && members.contains(&span[0]),
            Symbol::Insertion(_) => span.is_empty(),
            Symbol::Rule(rule, _) => rule_derives(*rule, start, end),
        }
    }

    /// Every list of end places by which the symbols make up a span.
    fn splits(
        &self,
        symbols: &[Symbol],
        start: usize,
        end: usize,
        rule_derives: &dyn Fn(usize, usize, usize) -> bool,
    ) -> Vec<Vec<usize>> {
        let Some((first, rest)) = symbols.split_first() else {
            return if start == end { vec![vec![]] } else { vec![] };
        };
        let mut lists = Vec::new();
        for middle in start..=end {
            if self.derives(first, start, middle, rule_derives) {
                for mut list in self.splits(rest, middle, end, rule_derives) {
                    list.insert(0, middle);
                    lists.push(list);
                }
            }
        }
        lists
    }

    fn each_cell(&self) -> Vec<(usize, usize, usize)> {
        let places = self.record.len() + 1;
        let mut cells = Vec::new();
        for rule in 0..self.rules.len() {
            for start in 0..places {
                cells.extend((start..places).map(|end| (rule, start, end)));
            }
        }
        cells
    }

    /// Heights 1, 2, ... until a height is nobody's least height.
    fn fill_heights(&mut self) {
        let places = self.record.len() + 1;
        self.heights = vec![vec![vec![None; places]; places]; self.rules.len()];
        for height in 1.. {
            let mut found = Vec::new();
            let known = |rule: usize, start: usize, end: usize| -> bool {
                self.heights[rule][start][end].is_some()
            };
            for (rule, start, end) in self.each_cell() {
                let alternatives = &self.rules[rule].alternatives;
                let derived = alternatives
                    .iter()
                    .any(|symbols| !self.splits(symbols, start, end, &known).is_empty());
                if derived && !known(rule, start, end) {
                    found.push((rule, start, end));
                }
            }
            if found.is_empty() {
                return;
            }
            for (rule, start, end) in found {
                self.heights[rule][start][end] = Some(height);
            }
        }
    }

    fn ways(&self, rule: usize, start: usize, end: usize) -> Vec<Way> {
        let known = |rule: usize, start: usize, end: usize| -> bool {
            self.heights[rule][start][end].is_some()
        };
        let mut ways = Vec::new();
        for (number, symbols) in self.rules[rule].alternatives.iter().enumerate() {
            for ends in self.splits(symbols, start, end, &known) {
                ways.push((number, ends));
            }
        }
        ways
    }

    /// The children of a way that are rules, with their spans.
    fn children(&self, rule: usize, start: usize, way: &Way) -> Vec<(usize, usize, usize)> {
        let symbols = &self.rules[rule].alternatives[way.0];
        let starts = std::iter::once(&start).chain(&way.1);
        let spans = starts.zip(&way.1);
        symbols
            .iter()
            .zip(spans)
            .filter_map(|(symbol, (&from, &to))| match symbol {
                Symbol::Rule(child, _) => Some((*child, from, to)),
                _ => None,
            })
            .collect()
    }

    /// The smallest way by height, then alternative, then ends.
    fn chosen_way(&self, rule: usize, start: usize, end: usize) -> Way {
        let height = |way: &Way| {
            let children = self.children(rule, start, way).into_iter();
            let heights = children.map(|(child, from, to)| self.heights[child][from][to].unwrap());
            heights.max().unwrap_or(0)
        };
        let ways = self.ways(rule, start, end).into_iter();
        ways.min_by_key(|way| (height(way), way.clone())).unwrap()
    }

    /// Whether there are two derivations of the record, counting up to two
    /// those of height at most 1, 2, ... until no count grows.
    fn is_ambiguous(&self) -> bool {
        let places = self.record.len() + 1;
        let mut counts = vec![vec![vec![0u32; places]; places]; self.rules.len()];
        loop {
            let mut next = counts.clone();
            for (rule, start, end) in self.each_cell() {
                let mut sum = 0;
                for way in self.ways(rule, start, end) {
                    let children = self.children(rule, start, &way).into_iter();
                    let count = |(child, from, to): (usize, usize, usize)| counts[child][from][to];
                    sum += children
                        .map(count)
                        .fold(1, |product, n| (product * n).min(2));
                }
                next[rule][start][end] = sum.min(2);
            }
            if next == counts {
                return counts[0][0][places - 1] > 1;
            }
            counts = next;
        }
    }

    /// Everything about the record, or `None` if the root does not derive it,
    /// or `Some(None)` if its reading has more numbers than `most`.
    pub fn outcome(&self, most: usize) -> Option<Option<Outcome>> {
        self.heights[0][0][self.record.len()]?;
        let mut numbers = Vec::new();
        let tree = self.tree(0, 0, self.record.len(), None, &mut numbers, most);
        if numbers.len() > most {
            return Some(None);
        }
        let ambiguous = self.is_ambiguous();
        let xml = convert(&tree, self.rules[0].mark, ambiguous);
        Some(Some(Outcome {
            numbers,
            ambiguous,
            xml,
        }))
    }

    /// The chosen tree; its numbers go into `numbers`, at most one too many.
    fn tree(
        &self,
        rule: usize,
        start: usize,
        end: usize,
        mark: Option<Mark>,
        numbers: &mut Vec<u32>,
        most: usize,
    ) -> Tree {
        let mut children = Vec::new();
        if numbers.len() <= most {
            let way = self.chosen_way(rule, start, end);
            numbers.push(way.0 as u32);
            let mut from = start;
            let symbols = &self.rules[rule].alternatives[way.0];
            for (symbol, &to) in symbols.iter().zip(&way.1) {
                children.push(match symbol {
                    Symbol::Literal(_, deleted) | Symbol::Set(_, deleted) => {
                        let text = if *deleted {
                            &[]
                        } else {
                            &self.record[from..to]
                        };
                        Tree::Text(text.iter().collect())
                    }
                    Symbol::Insertion(string) => Tree::Text(string.iter().collect()),
                    Symbol::Rule(child, mark) => self.tree(*child, from, to, *mark, numbers, most),
                });
                from = to;
            }
        }
        Tree::Node {
            name: self.rules[rule].name.clone(),
            mark: mark.unwrap_or(self.rules[rule].mark),
            children,
        }
    }
}

enum Tree {
    Text(String),
    Node {
        name: String,
        mark: Mark,
        children: Vec<Tree>,
    },
}

/// All text below, whatever the marks.
fn value(tree: &Tree) -> String {
    match tree {
        Tree::Text(text) => text.clone(),
        Tree::Node { children, .. } => children.iter().map(value).collect(),
    }
}

/// The attributes that these children expose, in order.
fn exposed(children: &[Tree]) -> Vec<(String, String)> {
    let mut attributes = Vec::new();
    for child in children {
        match child {
            Tree::Node {
                name,
                mark: Mark::Attribute,
                ..
            } => {
                attributes.push((name.clone(), value(child)));
            }
            Tree::Node {
                mark: Mark::Deleted,
                children,
                ..
            } => {
                attributes.extend(exposed(children));
            }
            _ => {}
        }
    }
    attributes
}

/// The text and elements that these children write, in order.
fn content(children: &[Tree]) -> Vec<&Tree> {
    let mut written = Vec::new();
    for child in children {
        match child {
            Tree::Text(text) if text.is_empty() => {}
            Tree::Node {
                mark: Mark::Attribute,
                ..
            } => {}
            Tree::Node {
                mark: Mark::Deleted,
                children,
                ..
            } => {
                written.extend(content(children));
            }
            Tree::Text(_)
            | Tree::Node {
                mark: Mark::Element,
                ..
            } => written.push(child),
        }
    }
    written
}

/// All elements among these trees and inside them, each with its children.
fn elements<'a>(trees: &[&'a Tree]) -> Vec<(&'a str, &'a [Tree])> {
    let mut found = Vec::new();
    for tree in trees {
        if let Tree::Node { name, children, .. } = tree {
            found.push((name.as_str(), &children[..]));
            found.extend(elements(&content(children)));
        }
    }
    found
}

fn is_bad_name(name: &str) -> bool {
    name.contains(['\u{AA}', '\u{B5}', '\u{BA}'])
}

fn has_bad_character(text: &str) -> bool {
    text.chars()
        .any(|c| c < ' ' && !['\t', '\n', '\r'].contains(&c))
}

fn convert(root: &Tree, mark: Mark, ambiguous: bool) -> Result<String, u32> {
    let Tree::Node { children, .. } = root else {
        unreachable!("the root is a rule");
    };
    let deleted = mark == Mark::Deleted;
    let top = if deleted {
        content(children)
    } else {
        vec![root]
    };
    let loose = if deleted { exposed(children) } else { vec![] };
    let elements = elements(&top);
    let twice = elements.iter().any(|(_, children)| {
        let attributes = exposed(children);
        (1..attributes.len()).any(|n| attributes[..n].iter().any(|a| a.0 == attributes[n].0))
    });
    let mut attributes = loose.clone();
    attributes.extend(elements.iter().flat_map(|(_, children)| exposed(children)));
    let mut texts: Vec<&Tree> = top
        .iter()
        .copied()
        .filter(|t| matches!(t, Tree::Text(_)))
        .collect();
    texts.extend(
        elements
            .iter()
            .flat_map(|(_, children)| content(children))
            .filter(|t| matches!(t, Tree::Text(_))),
    );
    let judgments = [
        (17, twice),
        (
            18,
            elements.iter().any(|(name, _)| is_bad_name(name))
                || attributes.iter().any(|(name, _)| is_bad_name(name)),
        ),
        (
            19,
            texts.iter().any(|text| has_bad_character(&value(text)))
                || attributes.iter().any(|(_, value)| has_bad_character(value)),
        ),
        (20, mark == Mark::Attribute),
        (
            21,
            deleted && !(loose.is_empty() && top.len() == 1 && matches!(top[0], Tree::Node { .. })),
        ),
        (22, attributes.iter().any(|(name, _)| name == "xmlns")),
    ];
    if let Some((number, _)) = judgments.into_iter().find(|(_, applies)| *applies) {
        return Err(number);
    }
    let state = " xmlns:ixml='http://invisiblexml.org/NS' ixml:state='ambiguous'";
    Ok(write(top[0], if ambiguous { state } else { "" }))
}

fn write(tree: &Tree, state: &str) -> String {
    match tree {
        Tree::Text(text) => escape(text),
        Tree::Node { name, children, .. } => {
            let mut start = format!("{name}{state}");
            for (name, value) in exposed(children) {
                let value = escape(&value)
                    .replace('\'', "&apos;")
                    .replace('\n', "&#xA;");
                start.push_str(&format!(" {name}='{value}'"));
            }
            let inside: String = content(children).iter().map(|t| write(t, "")).collect();
            if inside.is_empty() {
                format!("<{start}/>")
            } else {
                format!("<{start}>{inside}</{name}>")
            }
        }
    }
}

fn escape(text: &str) -> String {
    text.replace('&', "&amp;")
        .replace('<', "&lt;")
        .replace('>', "&gt;")
        .replace('\r', "&#xD;")
}

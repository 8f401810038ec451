//! How many of a record's first characters begin some text of the grammar.
//!
//! From the root on, which dots stand at which places: past a terminal that
//! matches, past a rule wherever it ends, and into every alternative that can
//! be finished. All rules derive some text, so an alternative can be finished
//! unless a terminal in it matches nothing.

use super::chart::Chart;
use super::dots::{Dot, Dots};
use super::places::Places;
use crate::plain::{Plain, Symbol, Terminal};

/// The greatest number of characters, for a record without a derivation.
pub fn place<const W: usize>(
    plain: &Plain,
    record: &[char],
    dots: &Dots<W>,
    chart: &Chart<W>,
) -> usize {
    let mut standing = Standing {
        dots,
        chart,
        firsts: firsts(plain, dots),
        places: vec![Places::NONE; dots.all.len()],
        fresh: vec![Places::NONE; dots.all.len()],
        queue: Vec::new(),
    };
    standing.enter(0, Places::one(0));
    standing.run();
    let symbols = plain
        .rules
        .iter()
        .flat_map(|rule| &rule.alternatives)
        .flat_map(|symbols| symbols.iter().map(Some).chain([None]));
    let reached = symbols.zip(&standing.places).flat_map(|(symbol, places)| {
        places
            .iter()
            .map(move |place| place + begun(plain, symbol, &record[place..]))
    });
    reached.max().unwrap_or(0)
}

/// For each rule the first dots of the alternatives that can be finished.
fn firsts<const W: usize>(plain: &Plain, dots: &Dots<W>) -> Vec<Vec<usize>> {
    let live = |symbol: &Symbol| match *symbol {
        Symbol::Terminal { terminal, .. } => plain.terminals[terminal].is_live(),
        _ => true,
    };
    let rules = plain.rules.iter().enumerate();
    rules
        .map(|(number, rule)| {
            let alternatives = rule.alternatives.iter().zip(dots.alternatives(number));
            alternatives
                .filter(|(symbols, _)| symbols.iter().all(live))
                .map(|(_, range)| range.start)
                .collect()
        })
        .collect()
}

/// How many characters of a literal the record begins with.
fn begun(plain: &Plain, symbol: Option<&Symbol>, record: &[char]) -> usize {
    let Some(&Symbol::Terminal { terminal, .. }) = symbol else {
        return 0;
    };
    match &plain.terminals[terminal] {
        Terminal::Literal(string) => string
            .iter()
            .zip(record)
            .take_while(|(a, b)| a == b)
            .count(),
        Terminal::Set(_) => 0,
    }
}

struct Standing<'a, const W: usize> {
    dots: &'a Dots<W>,
    chart: &'a Chart<W>,
    firsts: Vec<Vec<usize>>,
    /// For each dot the places where it stands.
    places: Vec<Places<W>>,
    /// Those not yet followed, and the dots that have some.
    fresh: Vec<Places<W>>,
    queue: Vec<usize>,
}

impl<const W: usize> Standing<'_, W> {
    fn run(&mut self) {
        while let Some(dot) = self.queue.pop() {
            let places = std::mem::take(&mut self.fresh[dot]);
            match self.dots.all[dot] {
                Dot::Terminal { matches, length } => {
                    self.add(dot + 1, (places & matches).later(length));
                }
                Dot::Insertion => self.add(dot + 1, places),
                Dot::Nonterminal(rule) => {
                    self.enter(rule, places);
                    self.add(dot + 1, self.chart.derived.union(rule, places));
                }
                Dot::End(_) => {}
            }
        }
    }

    fn enter(&mut self, rule: usize, places: Places<W>) {
        for at in 0..self.firsts[rule].len() {
            self.add(self.firsts[rule][at], places);
        }
    }

    fn add(&mut self, dot: usize, places: Places<W>) {
        let fresh = places & !self.places[dot];
        if fresh.is_empty() {
            return;
        }
        self.places[dot] |= fresh;
        if self.fresh[dot].is_empty() {
            self.queue.push(dot);
        }
        self.fresh[dot] |= fresh;
    }
}

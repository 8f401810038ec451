//! The chosen reading, and whether the record has another derivation.

use std::ops::Range;

use crate::engine::dots::Dot;
use crate::engine::heights::{least_heights, Heights};
use crate::engine::places::{words, Places, WORDS};
use crate::engine::{self, Forest, Node};
use crate::limits;
use crate::plain::Plain;
use crate::refusal::Refusal;

#[derive(Debug)]
pub struct Reading {
    /// The left parse: the alternative of each node, top first.
    pub numbers: Vec<u32>,
    pub ambiguous: bool,
}

/// Reads a record: 16 and 29. Sets of places get as many words as it asks for.
pub fn read(plain: &Plain, record: &[char]) -> Result<Reading, Refusal> {
    match words(record.len()) {
        1 => read_by::<1>(plain, record),
        2 => read_by::<2>(plain, record),
        3 => read_by::<3>(plain, record),
        _ => read_by::<WORDS>(plain, record),
    }
}

fn read_by<const W: usize>(plain: &Plain, record: &[char]) -> Result<Reading, Refusal> {
    let forest = engine::parse::<W>(plain, record).map_err(Refusal::NoReading)?;
    choose(&forest)
}

/// Walks the chosen derivation, with a stack instead of recursion. Each node
/// on the stack will give at least one number, so a reading that is too long
/// is noticed after at most as many steps as a reading may have numbers.
///
/// A record has a second derivation exactly when some node of one derivation
/// has a second way. Up to the first such node nothing is to be chosen; from
/// there on the least heights decide, of that node and of those that follow.
fn choose<const W: usize>(forest: &Forest<W>) -> Result<Reading, Refusal> {
    let mut numbers = Vec::new();
    let mut heights = None;
    let mut stack = vec![forest.root()];
    let mut ways = Ways::new(forest);
    while let Some(node) = stack.pop() {
        let only = match heights {
            None => ways.only(node, &mut stack),
            Some(_) => None,
        };
        numbers.push(only.unwrap_or_else(|| {
            let following = || least_heights(forest, &[&stack[..], &[node]].concat());
            let heights = heights.get_or_insert_with(following);
            ways.choose(node, heights, &mut stack)
        }));
        if numbers.len() + stack.len() > limits::READING_NUMBERS {
            return Err(Refusal::ReadingTooLong);
        }
    }
    Ok(Reading {
        numbers,
        ambiguous: heights.is_some(),
    })
}

/// Admits children whose least height is below the node's.
#[derive(Clone, Copy)]
struct Limit<'a, const W: usize> {
    heights: &'a Heights<W>,
    height: u32,
}

/// The ways of a node.
pub struct Ways<'a, const W: usize> {
    forest: &'a Forest<W>,
    /// For each dot of the alternative last retraced, the places on its ways.
    kept: Vec<Places<W>>,
}

impl<'a, const W: usize> Ways<'a, W> {
    pub fn new(forest: &'a Forest<W>) -> Ways<'a, W> {
        Ways {
            forest,
            kept: Vec::new(),
        }
    }

    /// The alternatives with any way at a node, with their numbers.
    fn alternatives(&self, node: Node) -> impl Iterator<Item = (u32, Range<usize>)> + 'a {
        let forest = self.forest;
        let complete = move |(_, dots): &(u32, Range<usize>)| {
            forest.chart.reached[(node.start, dots.end)].contains(node.end)
        };
        let alternatives = forest.dots.alternatives(node.rule).iter().cloned();
        (0..).zip(alternatives).filter(complete)
    }

    /// If a node has one way only, gives the number of its alternative and
    /// pushes the nonterminal children, the leftmost on top. Two ways are two
    /// alternatives, or different ends of the children of one.
    pub fn only(&mut self, node: Node, stack: &mut Vec<Node>) -> Option<u32> {
        let mut alternatives = self.alternatives(node);
        let (number, dots) = alternatives.next().expect("a derived node has a way");
        if alternatives.next().is_some() {
            return None;
        }
        self.retrace(node, dots.clone(), None);
        let mut kept = self.kept.iter();
        if kept.any(|places| places.iter().nth(1).is_some()) {
            return None;
        }
        self.push_children(node, dots, None, stack);
        Some(number)
    }

    /// Chooses the first alternative that has a way of the node's least height,
    /// and of its ways the one with the smallest ends. Gives the alternative's
    /// number and pushes the nonterminal children, the leftmost on top.
    pub fn choose(&mut self, node: Node, heights: &Heights<W>, stack: &mut Vec<Node>) -> u32 {
        let height = heights.height(node);
        let limit = Some(Limit { heights, height });
        let (number, dots) = self
            .alternatives(node)
            .find(|(_, dots)| {
                self.retrace(node, dots.clone(), limit);
                self.kept[0].contains(node.start)
            })
            .expect("a derived node has a way of its least height");
        self.push_children(node, dots, limit, stack);
        number
    }

    /// Pushes the nonterminal children of the way with the smallest ends in the
    /// alternative last retraced.
    fn push_children(
        &self,
        node: Node,
        dots: Range<usize>,
        limit: Option<Limit<W>>,
        stack: &mut Vec<Node>,
    ) {
        let below = stack.len();
        let mut place = node.start;
        for (dot, &later) in dots.zip(&self.kept[1..]) {
            match self.forest.dots.all[dot] {
                Dot::Terminal { length, .. } => place += length,
                Dot::Nonterminal(rule) => {
                    let start = place;
                    place = self
                        .ends(rule, start, later, limit)
                        .first()
                        .expect("a kept place leads on to a kept place");
                    stack.push(Node {
                        rule,
                        start,
                        end: place,
                    });
                }
                Dot::Insertion | Dot::End(_) => {}
            }
        }
        stack[below..].reverse();
    }

    /// Ways of a node, each with its alternative's number and its nonterminal
    /// children, the leftmost last: of each alternative two, if it has them.
    pub fn some(&mut self, node: Node) -> Vec<(u32, Vec<Node>)> {
        let alternatives: Vec<_> = self.alternatives(node).collect();
        let mut ways = Vec::new();
        for (number, dots) in alternatives {
            self.retrace(node, dots.clone(), None);
            let mut open = vec![(dots.start, node.start, Vec::new())];
            let mut found = 0;
            while let Some((dot, place, children)) = open.pop() {
                if dot == dots.end {
                    let children = children.into_iter().rev().collect();
                    ways.push((number, children));
                    found += 1;
                    if found == 2 {
                        break;
                    }
                    continue;
                }
                let later = self.kept[dot + 1 - dots.start];
                match self.forest.dots.all[dot] {
                    Dot::Terminal { length, .. } => open.push((dot + 1, place + length, children)),
                    Dot::Nonterminal(rule) => {
                        for end in self.ends(rule, place, later, None).iter() {
                            let mut children: Vec<Node> = children.clone();
                            children.push(Node {
                                rule,
                                start: place,
                                end,
                            });
                            open.push((dot + 1, end, children));
                        }
                    }
                    Dot::Insertion | Dot::End(_) => open.push((dot + 1, place, children)),
                }
            }
        }
        ways
    }

    /// Finds for each dot of an alternative the places on a way over the
    /// node's span that the limit admits.
    fn retrace(&mut self, node: Node, dots: Range<usize>, limit: Option<Limit<W>>) {
        let mut later = Places::one(node.end);
        self.kept.clear();
        self.kept.resize(dots.len() + 1, later);
        for (index, dot) in dots.enumerate().rev() {
            let reached = self.forest.chart.reached[(node.start, dot)];
            later = match self.forest.dots.all[dot] {
                Dot::Terminal { matches, length } => later.earlier(length) & matches & reached,
                Dot::Nonterminal(rule) => {
                    let mut places = Places::NONE;
                    for place in reached.iter() {
                        if !self.ends(rule, place, later, limit).is_empty() {
                            places.insert(place);
                        }
                    }
                    places
                }
                Dot::Insertion | Dot::End(_) => later & reached,
            };
            self.kept[index] = later;
        }
    }

    /// The admitted ends, among some places, of a rule from a start.
    fn ends(
        &self,
        rule: usize,
        start: usize,
        among: Places<W>,
        limit: Option<Limit<W>>,
    ) -> Places<W> {
        let ends = self.forest.chart.derived[(rule, start)] & among;
        match limit {
            Some(limit) if !ends.is_empty() => {
                ends & limit.heights.lower(rule, start, limit.height)
            }
            _ => ends,
        }
    }
}

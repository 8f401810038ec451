//! Least heights, in rounds.
//!
//! Round h completes exactly the rules over spans whose least height is
//! h, since it uses only what earlier rounds completed. The rounds end with the
//! highest of the nodes that are asked about: below them a chosen derivation
//! has nothing higher.

use super::chart::{self, Useful};
use super::dots::{Dot, Dots};
use super::places::{Grid, Places};
use super::{Forest, Node};
use crate::lists::Lists;

/// The least heights of some nodes, and of what may stand below them, as far
/// as these are not higher than the highest of the nodes.
pub struct Heights<const W: usize> {
    places: usize,
    /// For a rule and a start its steps, the last one first.
    steps: Lists<Step<W>>,
}

/// What a round did for a rule and a start.
#[derive(Clone, Copy)]
struct Step<const W: usize> {
    height: u32,
    /// The ends completed in this round or before.
    ends: Places<W>,
}

impl<const W: usize> Heights<W> {
    fn new(rules: usize, places: usize) -> Heights<W> {
        Heights {
            places,
            steps: Lists::new(rules * places),
        }
    }

    fn push(&mut self, rule: usize, start: usize, height: u32, ends: Places<W>) {
        let list = rule * self.places + start;
        self.steps.push(list, Step { height, ends });
    }

    /// The steps of a rule and a start, the last one first.
    fn steps(&self, rule: usize, start: usize) -> impl Iterator<Item = Step<W>> + '_ {
        self.steps.iter(rule * self.places + start)
    }

    /// The least height of one of the nodes, or of one below them that is not
    /// higher.
    pub fn height(&self, node: Node) -> u32 {
        let steps = self.steps(node.rule, node.start);
        let within = steps.take_while(|step| step.ends.contains(node.end));
        within.last().expect("a node with a height").height
    }

    /// The ends of a rule's derivations that are lower than this.
    pub fn lower(&self, rule: usize, start: usize, height: u32) -> Places<W> {
        let mut steps = self.steps(rule, start);
        let step = steps.find(|step| step.height < height);
        step.map_or(Places::NONE, |step| step.ends)
    }
}

/// The least heights of some nodes that are derived, and below them.
pub fn least_heights<const W: usize>(forest: &Forest<W>, nodes: &[Node]) -> Heights<W> {
    let dots = forest.dots.all.len();
    let rules = forest.dots.rules();
    let places = forest.length + 1;
    let mut rounds = Rounds {
        dots: &forest.dots,
        uses: forest.dots.uses(),
        useful: chart::prune(&forest.dots, &forest.chart, places, nodes),
        places,
        round: 1,
        reached: Grid::new(dots, places),
        waiting: Grid::new(dots, places),
        unfinished: vec![!Places::NONE; dots],
        derived: Grid::new(rules, places),
        fresh: Grid::new(rules, places),
        completed: Vec::new(),
        news: Grid::new(rules, places),
        changed: vec![Places::NONE; rules],
        changed_rules: Vec::new(),
        moves: Vec::new(),
        heights: Heights::new(rules, places),
    };
    rounds.start();
    for node in nodes {
        while !rounds.derived[(node.rule, node.start)].contains(node.end) {
            rounds.step();
        }
    }
    rounds.heights
}

struct Rounds<'a, const W: usize> {
    dots: &'a Dots<W>,
    uses: Lists<usize>,
    /// What lies on derivations of the nodes.
    useful: Useful<W>,
    places: usize,
    round: u32,
    /// The part of the useful `reached` that heights below this round give.
    reached: Grid<W>,
    /// For a dot before a nonterminal and a place, the starts that reached it.
    waiting: Grid<W>,
    /// For each dot the starts from which the dots behind it may still gain
    /// something by what it reaches.
    unfinished: Vec<Places<W>>,
    /// The part of the useful `derived` completed before this round.
    derived: Grid<W>,
    /// The ends completed in this round.
    fresh: Grid<W>,
    /// The rules and starts with fresh ends; between rounds those with news.
    completed: Vec<(usize, usize)>,
    /// The ends completed in the round before.
    news: Grid<W>,
    /// For each rule the starts with news.
    changed: Vec<Places<W>>,
    /// The rules with news.
    changed_rules: Vec<usize>,
    /// Dots with a start and places that they are to reach; empty between rounds.
    moves: Vec<(usize, usize, Places<W>)>,
    heights: Heights<W>,
}

impl<const W: usize> Rounds<'_, W> {
    /// The first round: every useful alternative, up to its first nonterminal.
    fn start(&mut self) {
        for rule in 0..self.dots.rules() {
            for start in 0..self.places {
                if self.useful.derived[(rule, start)].is_empty() {
                    continue;
                }
                for dots in self.dots.alternatives(rule) {
                    self.advance(dots.start, start, Places::one(start));
                }
            }
        }
        self.close();
    }

    /// One more round, which takes up what the last one completed.
    fn step(&mut self) {
        self.round += 1;
        let mut moves = std::mem::take(&mut self.moves);
        for index in 0..self.changed_rules.len() {
            let rule = self.changed_rules[index];
            let mut entry = self.uses.first(rule);
            while let Some((dot, behind)) = self.uses.at(entry) {
                self.take_up(dot, rule, &mut moves);
                entry = behind;
            }
        }
        self.forget_news();
        for (dot, start, places) in moves.drain(..) {
            self.advance(dot, start, places);
        }
        self.moves = moves;
        self.close();
    }

    fn forget_news(&mut self) {
        for (rule, start) in self.completed.drain(..) {
            self.news[(rule, start)] = Places::NONE;
        }
        for rule in self.changed_rules.drain(..) {
            self.changed[rule] = Places::NONE;
        }
    }

    /// Ends a round: what it completed has its height, and is news for the next.
    fn close(&mut self) {
        for &(rule, start) in &self.completed {
            let ends = std::mem::take(&mut self.fresh[(rule, start)]);
            let derived = &mut self.derived[(rule, start)];
            *derived |= ends;
            self.heights.push(rule, start, self.round, *derived);
            self.news[(rule, start)] = ends;
            if self.changed[rule].is_empty() {
                self.changed_rules.push(rule);
            }
            self.changed[rule].insert(start);
        }
    }

    /// Moves the dot over `rule` wherever the last round completed it, from what
    /// it has reached before this round, unless the next dot has already
    /// reached all that is useful.
    fn take_up(&mut self, dot: usize, rule: usize, moves: &mut Vec<(usize, usize, Places<W>)>) {
        if self.unfinished[dot].is_empty() {
            return;
        }
        let changed = self.changed[rule];
        let waiting = self.waiting.row(dot);
        let mut starts = Places::NONE;
        for place in changed.iter() {
            starts |= waiting[place];
        }
        for start in (starts & self.unfinished[dot]).iter() {
            if self.is_finished(dot, start) {
                continue;
            }
            let news = self.news.row(rule);
            let mut ends = Places::NONE;
            for place in (self.reached[(dot, start)] & changed).iter() {
                ends |= news[place];
            }
            moves.push((dot + 1, start, ends));
        }
    }

    /// Whether from this start the dots behind a dot have nothing to gain.
    fn is_finished(&mut self, dot: usize, start: usize) -> bool {
        let next = (dot + 1, start);
        let finished = !self.unfinished[dot + 1].contains(start)
            || self.reached[next] == self.useful.reached[next];
        if finished {
            self.unfinished[dot].remove(start);
        }
        finished
    }

    /// Notes that the symbols before a dot lead from `start` to these places,
    /// and follows the alternative as far as this round goes.
    fn advance(&mut self, mut dot: usize, start: usize, mut places: Places<W>) {
        loop {
            let reached = &mut self.reached[(dot, start)];
            places = places & self.useful.reached[(dot, start)] & !*reached;
            if places.is_empty() {
                return;
            }
            *reached |= places;
            match self.dots.all[dot] {
                Dot::Terminal { matches, length } => places = (places & matches).later(length),
                Dot::Insertion => {}
                Dot::Nonterminal(rule) => {
                    if self.is_finished(dot, start) {
                        return;
                    }
                    let (waiting, derived) = (self.waiting.row_mut(dot), self.derived.row(rule));
                    let mut ends = Places::NONE;
                    for place in places.iter() {
                        waiting[place].insert(start);
                        ends |= derived[place];
                    }
                    places = ends;
                }
                Dot::End(rule) => return self.complete(rule, start, places),
            }
            dot += 1;
        }
    }

    fn complete(&mut self, rule: usize, start: usize, ends: Places<W>) {
        let fresh = &mut self.fresh[(rule, start)];
        let ends = ends & !self.derived[(rule, start)] & !*fresh;
        if ends.is_empty() {
            return;
        }
        if fresh.is_empty() {
            self.completed.push((rule, start));
        }
        *fresh |= ends;
    }
}

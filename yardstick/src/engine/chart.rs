//! Recognition: which rules derive which spans.
//!
//! Earley's method with sets of places as bits: a rule is tried at a place
//! only if some alternative tried further left has come to it there. Work on
//! the latest place goes first, so that most rules are complete at a place
//! before an earlier one asks for them.

use super::dots::{Dot, Dots};
use super::places::{Grid, Places};
use super::Node;
use crate::lists::Lists;

/// Where the symbols of a grammar lead in a record.
pub struct Chart<const W: usize> {
    /// For a start and a dot, the places that the symbols before the dot reach.
    pub reached: Grid<W>,
    /// For a rule and a start, the places where it may end.
    pub derived: Grid<W>,
}

/// Fills a chart that is exact for every rule and place that the root can come
/// to from the left, and empty elsewhere.
pub fn recognise<const W: usize>(dots: &Dots<W>, places: usize) -> Chart<W> {
    let rules = dots.rules();
    let mut recogniser = Recogniser {
        dots,
        chart: Chart {
            reached: Grid::new(places, dots.all.len()),
            derived: Grid::new(rules, places),
        },
        waiting: Lists::new(places * rules),
        fresh: Grid::new(places, rules),
        predicted: vec![Places::NONE; rules],
        to_predict: Lists::new(places),
        to_propagate: Lists::new(places),
        busy: Places::NONE,
    };
    recogniser.run();
    recogniser.chart
}

struct Recogniser<'a, const W: usize> {
    dots: &'a Dots<W>,
    chart: Chart<W>,
    /// For a place and a rule, the dots before the rule and the starts of the
    /// alternatives that wait there for it.
    waiting: Lists<(usize, usize)>,
    /// For a start and a rule, the part of `derived` not yet passed on to the
    /// waiting alternatives.
    fresh: Grid<W>,
    /// For each rule the places at which it is or will be tried.
    predicted: Vec<Places<W>>,
    /// For each place the rules still to be tried there.
    to_predict: Lists<usize>,
    /// For each place the rules with fresh ends.
    to_propagate: Lists<usize>,
    /// The places with anything to do.
    busy: Places<W>,
}

impl<const W: usize> Recogniser<'_, W> {
    fn run(&mut self) {
        self.predict(0, Places::one(0));
        while let Some(place) = self.busy.last() {
            if let Some(rule) = self.to_predict.pop(place) {
                for alternative in self.dots.alternatives(rule) {
                    self.advance(alternative.start, place, Places::one(place));
                }
            } else if let Some(rule) = self.to_propagate.pop(place) {
                self.propagate(rule, place);
            } else {
                self.busy.remove(place);
            }
        }
    }

    /// Passes on the fresh ends of a rule. What comes to wait meanwhile has
    /// them already.
    fn propagate(&mut self, rule: usize, place: usize) {
        let ends = std::mem::take(&mut self.fresh[(place, rule)]);
        let mut entry = self.waiting.first(self.waiting_at(place, rule));
        while let Some(((dot, start), behind)) = self.waiting.at(entry) {
            self.advance(dot + 1, start, ends);
            entry = behind;
        }
    }

    /// The number of a list of `waiting`.
    fn waiting_at(&self, place: usize, rule: usize) -> usize {
        place * self.dots.rules() + rule
    }

    fn predict(&mut self, rule: usize, places: Places<W>) {
        let unknown = places & !self.predicted[rule];
        self.predicted[rule] |= unknown;
        self.busy |= unknown;
        for place in unknown.iter() {
            self.to_predict.push(place, rule);
        }
    }

    /// Notes that the symbols before a dot lead from `start` to these places,
    /// and follows the alternative as far as possible. None of them is before
    /// the place that is worked on, so the rules tried at those that are not
    /// busy are complete: nothing has to wait there.
    fn advance(&mut self, mut dot: usize, start: usize, mut places: Places<W>) {
        loop {
            let reached = &mut self.chart.reached[(start, dot)];
            places = places & !*reached;
            if places.is_empty() {
                return;
            }
            *reached |= places;
            match self.dots.all[dot] {
                Dot::Terminal { matches, length } => places = (places & matches).later(length),
                Dot::Insertion => {}
                Dot::Nonterminal(rule) => {
                    self.predict(rule, places);
                    for place in (places & self.busy).iter() {
                        let list = self.waiting_at(place, rule);
                        self.waiting.push(list, (dot, start));
                    }
                    places = self.chart.derived.union(rule, places);
                }
                Dot::End(rule) => return self.complete(rule, start, places),
            }
            dot += 1;
        }
    }

    fn complete(&mut self, rule: usize, start: usize, ends: Places<W>) {
        let derived = &mut self.chart.derived[(rule, start)];
        let ends = ends & !*derived;
        if ends.is_empty() {
            return;
        }
        *derived |= ends;
        let fresh = &mut self.fresh[(start, rule)];
        if fresh.is_empty() {
            self.to_propagate.push(start, rule);
            self.busy.insert(start);
        }
        *fresh |= ends;
    }
}

/// What lies on the derivations of some nodes.
pub struct Useful<const W: usize> {
    /// For a dot and a start, the places that the symbols before the dot reach
    /// and from which those behind it lead on.
    pub reached: Grid<W>,
    /// For a rule and a start, the places where it ends.
    pub derived: Grid<W>,
}

/// Keeps of a chart, going down from some nodes that are derived, what lies on
/// their derivations.
pub fn prune<const W: usize>(
    dots: &Dots<W>,
    chart: &Chart<W>,
    places: usize,
    nodes: &[Node],
) -> Useful<W> {
    let rules = dots.rules();
    let full = |rule: usize| chart.derived.full(rule);
    let mut pruner = Pruner {
        dots,
        chart,
        kept: Useful {
            reached: Grid::new(dots.all.len(), places),
            derived: Grid::new(rules, places),
        },
        full: (0..rules).map(full).collect(),
        satisfied: vec![Places::NONE; rules],
        queued: vec![Places::NONE; rules],
        queue: Lists::new(places),
    };
    for node in nodes {
        pruner.need(node.rule, node.start, Places::one(node.end));
    }
    for start in 0..places {
        while let Some(rule) = pruner.queue.pop(start) {
            pruner.queued[rule].remove(start);
            for alternative in dots.alternatives(rule) {
                pruner.retrace(alternative.start, alternative.end, rule, start);
            }
        }
    }
    pruner.kept
}

struct Pruner<'a, const W: usize> {
    dots: &'a Dots<W>,
    chart: &'a Chart<W>,
    kept: Useful<W>,
    /// For each rule the starts from which it derives all that is longer than
    /// nothing.
    full: Vec<Places<W>>,
    /// For each rule the starts at which all its ends are needed.
    satisfied: Vec<Places<W>>,
    /// For each rule the starts at which it is queued.
    queued: Vec<Places<W>>,
    /// For each start the rules whose needed ends have grown. A rule only asks
    /// for rules at its own or later places, so one sweep over the starts does.
    queue: Lists<usize>,
}

impl<const W: usize> Pruner<'_, W> {
    fn need(&mut self, rule: usize, start: usize, ends: Places<W>) {
        let needed = &mut self.kept.derived[(rule, start)];
        if (ends & !*needed).is_empty() {
            return;
        }
        *needed |= ends;
        if *needed == self.chart.derived[(rule, start)] {
            self.satisfied[rule].insert(start);
        }
        if !self.queued[rule].contains(start) {
            self.queued[rule].insert(start);
            self.queue.push(start, rule);
        }
    }

    /// Follows an alternative from its needed ends back to its start. A place
    /// kept at a dot is reached from the start and leads to a needed end.
    fn retrace(&mut self, first: usize, end: usize, rule: usize, start: usize) {
        let mut kept = self.chart.reached[(start, end)] & self.kept.derived[(rule, start)];
        if (kept & !self.kept.reached[(end, start)]).is_empty() {
            return;
        }
        self.kept.reached[(end, start)] = kept;
        for dot in (first..end).rev() {
            let reached = self.chart.reached[(start, dot)];
            kept = match self.dots.all[dot] {
                Dot::Terminal { matches, length } => kept.earlier(length) & matches & reached,
                Dot::Nonterminal(rule) => self.begins(rule, reached, kept),
                Dot::Insertion | Dot::End(_) => kept & reached,
            };
            self.kept.reached[(dot, start)] = kept;
        }
    }

    /// The starts, among some places, from which a rule has any of these ends;
    /// there it is needed. Where it derives everything and all of that is
    /// needed already, there is nothing to look at but the last end.
    fn begins(&mut self, rule: usize, among: Places<W>, ends: Places<W>) -> Places<W> {
        let Some(last) = ends.last() else {
            return Places::NONE;
        };
        let known = among & self.full[rule] & self.satisfied[rule] & Places::before(last);
        let mut places = known;
        for place in (among & !known).iter().take_while(|&place| place <= last) {
            let ends = self.chart.derived[(rule, place)] & ends;
            if !ends.is_empty() {
                places.insert(place);
                self.need(rule, place, ends);
            }
        }
        places
    }
}

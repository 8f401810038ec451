//! Which rules derive which spans within a height, one height after the other.
//!
//! After k rounds it is known of each rule and span whether it has a derivation
//! of height at most k: a round follows each alternative through what the rounds
//! before it found, and through nothing newer.

use std::ops::Range;

use super::dots::{Dot, Dots};
use super::places::{Grid, Places};

/// A read that is cut into rounds.
#[derive(Clone, Debug)]
pub struct Rounds {
    dots: Dots,
    places: usize,
    /// For a rule and a start, the ends of its derivations of height at most `done`.
    derived: Grid,
    done: usize,
    finished: bool,
}

impl Rounds {
    /// Of a record with so many characters.
    pub fn new(dots: Dots, characters: usize) -> Rounds {
        let places = characters + 1;
        let derived = Grid::new(dots.rules(), places);
        Rounds {
            dots,
            places,
            derived,
            done: 0,
            finished: false,
        }
    }

    /// How many rounds were done.
    pub fn done(&self) -> usize {
        self.done
    }

    pub fn is_finished(&self) -> bool {
        self.finished
    }

    /// The rules, written and made.
    pub fn rules(&self) -> usize {
        self.dots.rules()
    }

    /// As many rounds as there may be.
    pub fn most(&self) -> usize {
        self.rules() * self.places
    }

    /// Whether a rule has a derivation of height at most `done` over a span.
    pub fn derives(&self, rule: usize, start: usize, end: usize) -> bool {
        self.derived[(rule, start)].contains(end)
    }

    /// Over how many spans the rules have such a derivation, all counts added up.
    pub fn count(&self) -> usize {
        let cells = (0..self.rules()).flat_map(|rule| (0..self.places).map(move |i| (rule, i)));
        cells.map(|cell| self.derived[cell].count() as usize).sum()
    }

    /// One round more, unless there were enough.
    pub fn step(&mut self) {
        if self.finished {
            return;
        }
        let next = self.next();
        self.done += 1;
        self.finished = self.done == self.most() || self.is_known(&next);
        self.derived = next;
    }

    /// The ends with one height more.
    fn next(&self) -> Grid {
        let mut next = self.derived.clone();
        for rule in 0..self.rules() {
            for start in 0..self.places {
                for alternative in self.dots.alternatives(rule) {
                    next[(rule, start)] |= self.ends(alternative.clone(), start);
                }
            }
        }
        next
    }

    /// Where an alternative may end.
    fn ends(&self, alternative: Range<usize>, start: usize) -> Places {
        let mut places = Places::one(start);
        for dot in alternative {
            places = match self.dots.all[dot] {
                Dot::Terminal { matches, length } => (places & matches).later(length),
                Dot::Nonterminal(rule) => places.iter().fold(Places::NONE, |ends, place| {
                    ends | self.derived[(rule, place)]
                }),
                Dot::Insertion | Dot::End(_) => places,
            };
        }
        places
    }

    /// Whether the round found nothing new.
    fn is_known(&self, next: &Grid) -> bool {
        let mut cells = (0..self.rules()).flat_map(|rule| (0..self.places).map(move |i| (rule, i)));
        cells.all(|cell| next[cell] == self.derived[cell])
    }
}

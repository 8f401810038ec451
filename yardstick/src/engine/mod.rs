//! The parser: all derivations of a record, and least heights.
//!
//! Recognise the record. Heights are a step of their own, since only a record
//! with several derivations needs them; they keep of the chart what some nodes'
//! derivations use. Each step repeats only what has news, so cycles, empty
//! rules and left recursion end by themselves.

pub mod chart;
pub mod dots;
pub mod fault;
pub mod heights;
pub mod places;
pub mod rounds;

use crate::plain::Plain;
use chart::Chart;
use dots::Dots;

/// Every derivation of a record, shared.
pub struct Forest<const W: usize> {
    pub dots: Dots<W>,
    /// Exact for every rule and place that a derivation of the record uses.
    pub chart: Chart<W>,
    /// The record's number of characters.
    pub length: usize,
}

impl<const W: usize> Forest<W> {
    /// The root over the whole record.
    pub fn root(&self) -> Node {
        Node {
            rule: 0,
            start: 0,
            end: self.length,
        }
    }
}

/// A rule over a span.
#[derive(Clone, Copy, Debug, PartialEq, Eq)]
pub struct Node {
    pub rule: usize,
    pub start: usize,
    pub end: usize,
}

/// The derivations of the record from the root; if there are none, the place
/// of the fault. The record's places must fit into so many words.
pub fn parse<const W: usize>(plain: &Plain, record: &[char]) -> Result<Forest<W>, usize> {
    let length = record.len();
    let dots = Dots::new(plain, record);
    let chart = chart::recognise(&dots, length + 1);
    if !chart.derived[(0, 0)].contains(length) {
        return Err(fault::place(plain, record, &dots, &chart));
    }
    Ok(Forest {
        dots,
        chart,
        length,
    })
}

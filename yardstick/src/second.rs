//! A derivation of an ambiguous record other than the chosen one.

use crate::engine::heights::least_heights;
use crate::engine::places::{words, WORDS};
use crate::engine::{self, Forest};
use crate::plain::Plain;
use crate::reading::Ways;

/// The left parse of a derivation that differs from the chosen one at the first
/// node, top first, that has a second way; below it and after it all is chosen as
/// ever. `None` if there is no second derivation.
pub fn second(plain: &Plain, record: &[char]) -> Option<Vec<u32>> {
    match words(record.len()) {
        1 => differing(&engine::parse::<1>(plain, record).ok()?),
        2 => differing(&engine::parse::<2>(plain, record).ok()?),
        3 => differing(&engine::parse::<3>(plain, record).ok()?),
        _ => differing(&engine::parse::<WORDS>(plain, record).ok()?),
    }
}

/// Before the node with a second way nothing is to be chosen. The other way may
/// lead to higher nodes than the chosen one, so the heights are then asked anew.
fn differing<const W: usize>(forest: &Forest<W>) -> Option<Vec<u32>> {
    let mut ways = Ways::new(forest);
    let mut stack = Vec::new();
    let mut numbers = Vec::new();
    let mut node = forest.root();
    while let Some(number) = ways.only(node, &mut stack) {
        numbers.push(number);
        node = stack.pop()?;
    }
    let heights = least_heights(forest, &[node]);
    let mut children = Vec::new();
    let chosen = (ways.choose(node, &heights, &mut children), children);
    let mut others = ways.some(node).into_iter();
    let (number, mut children) = others.find(|way| *way != chosen)?;
    numbers.push(number);
    stack.append(&mut children);
    let heights = least_heights(forest, &stack);
    while let Some(node) = stack.pop() {
        numbers.push(ways.choose(node, &heights, &mut stack));
    }
    Some(numbers)
}

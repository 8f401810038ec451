//! Two readings of an ambiguous record, both judged by the library, and where
//! they part.

use ixml::Reader;

use crate::tree::{self, Node};

/// A reading: its tree without made rules, and its XML, or why that cannot be
/// written.
pub struct Reading {
    pub tree: Node,
    pub xml: Result<String, ixml::Error>,
}

/// The chosen reading, and another.
pub struct Two {
    pub readings: [Reading; 2],
}

impl Two {
    /// Where the two part, in a sentence: the first node, in the order of a left
    /// parse, whose trees differ.
    pub fn part(&self) -> String {
        let [one, other] = &self.readings;
        let same = common(&one.tree, &other.tree);
        let (a, b) = (words(&one.tree), words(&other.tree));
        let at = |words: &[String]| words.get(same).cloned().unwrap_or("the end".into());
        let after = match same.checked_sub(1).and_then(|place| a.get(place)) {
            Some(word) => format!("after {word} "),
            None => String::new(),
        };
        format!("The two part {after}at {} and {}.", at(&a), at(&b))
    }
}

/// How many nodes the two trees have in common, in the order of a left parse.
fn common(one: &Node, other: &Node) -> usize {
    let (one, other) = (words(one), words(other));
    one.iter().zip(&other).take_while(|(a, b)| a == b).count()
}

/// The nodes of a tree in words, top first, children left to right.
fn words(tree: &Node) -> Vec<String> {
    let mut words = Vec::new();
    let mut pending = vec![tree];
    while let Some(node) = pending.pop() {
        words.push(node.word());
        pending.extend(node.children.iter().rev());
    }
    words
}

/// The chosen reading and another, if the record has two. The other is found by
/// the yardstick's search; that it is one the library says, by judging it.
pub fn two(grammar: &[u8], record: &[u8]) -> Option<Two> {
    let mut reader = Reader::new();
    let chosen = reader.read(grammar, record).ok()?;
    if !chosen.ambiguous {
        return None;
    }
    let other = ixml_yardstick::second(grammar, record)?;
    let mut judged = |numbers: Vec<u32>| {
        let xml = match reader.judge(grammar, record, &numbers) {
            Err(ixml::Error::NoDerivation) => return None,
            outcome => outcome.map(|converted| converted.xml),
        };
        let tree = tree::tree(grammar, record, &numbers)?.plain();
        Some(Reading { tree, xml })
    };
    let readings = [judged(chosen.numbers)?, judged(other)?];
    Some(Two { readings })
}

#[cfg(test)]
mod tests {
    use super::*;

    #[test]
    fn where_they_part() {
        let two = two(b"a: b; c. b: 'x'. c: 'x'.", b"x").expect("two readings");
        let xml = two.readings.each_ref().map(|reading| reading.xml.clone());
        assert_eq!(
            xml,
            [Ok("<a><b>x</b></a>".into()), Ok("<a><c>x</c></a>".into())]
        );
        assert_eq!(two.part(), "The two part after a at b and c.");
    }

    #[test]
    fn one_reading_alone() {
        assert!(super::two(b"a: 'x'.", b"x").is_none());
        assert!(super::two(b"a: 'x'.", b"y").is_none());
    }
}

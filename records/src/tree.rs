//! A left parse as a tree, as indented text and as a picture. Drawn from the
//! yardstick's plain rules, so it shows what the library answered and is no part
//! of what is proved.

use std::fmt::Write;

use ixml_yardstick::plain::{plain, Plain, Symbol, Terminal};
use ixml_yardstick::syntax::{self, Mark};
use ixml_yardstick::text;

/// A node of a derivation.
#[derive(Clone, Debug, PartialEq, Eq)]
pub struct Node {
    pub label: String,
    pub kind: Kind,
    pub children: Vec<Node>,
}

#[derive(Clone, Copy, Debug, PartialEq, Eq)]
pub enum Kind {
    Element,
    Attribute,
    /// A name that is marked deleted, or a rule that a repetition or a bracket
    /// makes.
    Hidden,
    Text,
    DeletedText,
    Insertion,
}

/// The tree that a left parse names; none if the list is no left parse of the
/// record by the grammar.
pub fn tree(grammar: &[u8], record: &[u8], numbers: &[u32]) -> Option<Node> {
    let text = text::grammar(grammar).ok()?;
    let syntax = syntax::read(text).ok()?;
    let plain = plain(&syntax);
    let record: Vec<char> = std::str::from_utf8(record).ok()?.chars().collect();
    let mut walk = Walk {
        plain: &plain,
        record: &record,
        numbers,
        entry: 0,
        place: 0,
    };
    let root = walk.node(0, None)?;
    (walk.entry == numbers.len() && walk.place == record.len()).then_some(root)
}

struct Walk<'a> {
    plain: &'a Plain<'a>,
    record: &'a [char],
    numbers: &'a [u32],
    entry: usize,
    place: usize,
}

/// A symbol that is still to come, or the end of a node.
enum Next {
    Symbol(Symbol),
    Leave,
}

impl Walk<'_> {
    /// With a stack of its own: a derivation may be thousands of nodes deep.
    fn node(&mut self, rule: usize, mark: Option<Mark>) -> Option<Node> {
        let mut pending = Vec::new();
        let mut open = vec![self.enter(rule, mark, &mut pending)?];
        while let Some(next) = pending.pop() {
            match next {
                Next::Leave => {
                    let node = open.pop()?;
                    match open.last_mut() {
                        Some(parent) => parent.children.push(node),
                        None => return Some(node),
                    }
                }
                Next::Symbol(Symbol::Nonterminal { rule, mark }) => {
                    open.push(self.enter(rule, mark, &mut pending)?);
                }
                Next::Symbol(Symbol::Terminal { terminal, deleted }) => {
                    let leaf = self.terminal(terminal, deleted)?;
                    open.last_mut()?.children.push(leaf);
                }
                Next::Symbol(Symbol::Insertion(number)) => {
                    let label = self.plain.insertions[number].iter().collect();
                    open.last_mut()?.children.push(leaf(label, Kind::Insertion));
                }
            }
        }
        None
    }

    fn enter(&mut self, rule: usize, mark: Option<Mark>, pending: &mut Vec<Next>) -> Option<Node> {
        let number = *self.numbers.get(self.entry)? as usize;
        self.entry += 1;
        let rule = &self.plain.rules[rule];
        let symbols = rule.alternatives.get(number)?;
        pending.push(Next::Leave);
        pending.extend(symbols.iter().rev().map(|&symbol| Next::Symbol(symbol)));
        let kind = match mark.unwrap_or(rule.mark) {
            Mark::Element => Kind::Element,
            Mark::Attribute => Kind::Attribute,
            Mark::Deleted => Kind::Hidden,
        };
        Some(Node {
            label: rule.name.to_string(),
            kind,
            children: Vec::new(),
        })
    }

    fn terminal(&mut self, number: usize, deleted: bool) -> Option<Node> {
        let terminal: &Terminal = &self.plain.terminals[number];
        let rest = &self.record[self.place..];
        if !terminal.matches(rest) {
            return None;
        }
        let label = rest[..terminal.length()].iter().collect();
        self.place += terminal.length();
        let kind = if deleted {
            Kind::DeletedText
        } else {
            Kind::Text
        };
        Some(leaf(label, kind))
    }
}

fn leaf(label: String, kind: Kind) -> Node {
    Node {
        label,
        kind,
        children: Vec::new(),
    }
}

impl Node {
    /// Without the nodes of rules that a repetition or a bracket makes: their
    /// children stand in their place. Neighbouring characters become one leaf.
    pub fn plain(self) -> Node {
        let mut children: Vec<Node> = Vec::new();
        for child in self.children {
            let child = child.plain();
            let unnamed = child.label.is_empty() && child.kind == Kind::Hidden;
            let row = if unnamed { child.children } else { vec![child] };
            for node in row {
                match children.last_mut() {
                    Some(last) if node.is_text() && last.kind == node.kind => {
                        last.label.push_str(&node.label);
                    }
                    _ => children.push(node),
                }
            }
        }
        Node { children, ..self }
    }

    fn is_text(&self) -> bool {
        matches!(self.kind, Kind::Text | Kind::DeletedText | Kind::Insertion)
    }

    /// The node in words: a name with its mark, a text in quotes.
    pub fn word(&self) -> String {
        match self.kind {
            Kind::Element => self.label.clone(),
            Kind::Attribute => format!("@{}", self.label),
            Kind::Hidden if self.label.is_empty() => "·".into(),
            Kind::Hidden => format!("-{}", self.label),
            Kind::Text => format!("{:?}", self.label),
            Kind::DeletedText => format!("-{:?}", self.label),
            Kind::Insertion => format!("+{:?}", self.label),
        }
    }

    /// A line for each node, children indented below it.
    pub fn indented(&self) -> String {
        let mut lines = String::new();
        let mut pending = vec![(self, 0)];
        while let Some((node, depth)) = pending.pop() {
            let _ = writeln!(lines, "{:width$}{}", "", node.word(), width = 2 * depth);
            pending.extend(node.children.iter().rev().map(|child| (child, depth + 1)));
        }
        lines
    }

    /// A picture: nodes in rows by depth, leaves side by side.
    pub fn svg(&self) -> String {
        let mut boxes = Vec::new();
        let mut right = 0.0;
        lay_out(self, 0, &mut right, &mut boxes);
        let depth = boxes.iter().map(|laid| laid.depth).max().unwrap_or(0);
        let (width, height) = (right.max(60.0), 50.0 * (depth as f64 + 1.0));
        let mut svg = format!(
            "<svg xmlns=\"http://www.w3.org/2000/svg\" viewBox=\"0 0 {width:.0} {height:.0}\" \
             width=\"{width:.0}\" height=\"{height:.0}\" font-family=\"ui-monospace, monospace\" \
             font-size=\"13\" text-anchor=\"middle\" role=\"img\">\n<title>{}</title>\n",
            escape(&format!("A reading with the root {}", self.word()))
        );
        for laid in &boxes {
            if let Some(parent) = laid.parent {
                let _ = writeln!(
                    svg,
                    "<path d=\"M{:.1} {} L{:.1} {}\" stroke=\"#9aa5b1\" fill=\"none\"/>",
                    parent,
                    50 * laid.depth - 18,
                    laid.middle,
                    50 * laid.depth + 6
                );
            }
        }
        for laid in &boxes {
            let (fill, colour) = match laid.kind {
                Kind::Element => ("#dbeafe", "#1e3a8a"),
                Kind::Attribute => ("#fef3c7", "#78350f"),
                Kind::Hidden => ("#f1f5f9", "#64748b"),
                Kind::Text => ("#dcfce7", "#14532d"),
                Kind::DeletedText => ("#fee2e2", "#7f1d1d"),
                Kind::Insertion => ("#ede9fe", "#4c1d95"),
            };
            let _ = writeln!(
                svg,
                "<rect x=\"{:.1}\" y=\"{}\" width=\"{:.1}\" height=\"24\" rx=\"5\" fill=\"{fill}\"/>\
                 <text x=\"{:.1}\" y=\"{}\" fill=\"{colour}\">{}</text>",
                laid.middle - laid.width / 2.0,
                50 * laid.depth + 7,
                laid.width,
                laid.middle,
                50 * laid.depth + 23,
                escape(&laid.word)
            );
        }
        svg.push_str("</svg>\n");
        svg
    }
}

/// A node with its place in the picture.
struct Laid {
    word: String,
    kind: Kind,
    depth: usize,
    middle: f64,
    width: f64,
    parent: Option<f64>,
}

/// Leaves stand side by side from `right` on, a node over the middle of its
/// children. Gives the node's middle and its number in `boxes`.
fn lay_out(node: &Node, depth: usize, right: &mut f64, boxes: &mut Vec<Laid>) -> (f64, usize) {
    const GAP: f64 = 12.0;
    let word = node.word();
    let width = 16.0 + 8.0 * word.chars().count() as f64;
    let start = *right;
    let children: Vec<(f64, usize)> = node
        .children
        .iter()
        .map(|child| lay_out(child, depth + 1, right, boxes))
        .collect();
    let middle = match (children.first(), children.last()) {
        (Some((first, _)), Some((last, _))) => (first + last) / 2.0,
        _ => start + (width + GAP) / 2.0,
    };
    let middle = middle.max(start + (width + GAP) / 2.0);
    *right = right.max(middle + (width + GAP) / 2.0);
    for (_, child) in children {
        boxes[child].parent = Some(middle);
    }
    boxes.push(Laid {
        word,
        kind: node.kind,
        depth,
        middle,
        width,
        parent: None,
    });
    (middle, boxes.len() - 1)
}

/// Text for XML and HTML.
pub fn escape(text: &str) -> String {
    let mut escaped = String::with_capacity(text.len());
    for character in text.chars() {
        match character {
            '&' => escaped.push_str("&amp;"),
            '<' => escaped.push_str("&lt;"),
            '>' => escaped.push_str("&gt;"),
            '"' => escaped.push_str("&quot;"),
            '\'' => escaped.push_str("&#39;"),
            '\t' | '\n' => escaped.push(character),
            '\u{0}'..='\u{1F}' | '\u{7F}'..='\u{9F}' => escaped.push('\u{FFFD}'),
            _ => escaped.push(character),
        }
    }
    escaped
}

#[cfg(test)]
mod tests {
    use super::*;

    const GRAMMAR: &[u8] = b"p: @lat, -' ', @lon. lat: d+. lon: d+. -d: ['0'-'9'].";

    #[test]
    fn indented() {
        let numbers = [0, 0, 0, 0, 0, 0, 1, 0, 0, 0, 0, 0, 1];
        let tree = tree(GRAMMAR, b"45 12", &numbers).expect("a reading");
        let text = "p\n  @lat\n    -d\n      \"4\"\n    -d\n      \"5\"\n  -\" \"\n  \
                    @lon\n    -d\n      \"1\"\n    -d\n      \"2\"\n";
        assert_eq!(tree.clone().plain().indented(), text);
        assert_eq!(tree.indented().lines().count(), 18);
    }

    #[test]
    fn no_reading_of_the_record() {
        assert_eq!(tree(GRAMMAR, b"45 12", &[0]), None);
        assert_eq!(
            tree(GRAMMAR, b"45 1x", &[0, 0, 0, 0, 0, 0, 1, 0, 0, 0, 0, 0, 1]),
            None
        );
        assert_eq!(tree(b"a: 'x'.", b"x", &[1]), None);
        assert_eq!(tree(b"a: 'x'.", b"x", &[0, 0]), None);
    }

    #[test]
    fn a_picture() {
        let svg = tree(b"a: 'x<'.", b"x<", &[0]).expect("a reading").svg();
        assert!(svg.starts_with("<svg ") && svg.ends_with("</svg>\n"));
        assert!(svg.contains("x&lt;"));
    }
}

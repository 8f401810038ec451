//! The XML of a reading.

use std::borrow::Cow;

use crate::plain::{Plain, Symbol};
use crate::refusal::Refusal;
use crate::syntax::Mark;

const NAMESPACE: &str = "http://invisiblexml.org/NS";

/// What the document element says of its making.
#[derive(Clone, Copy, Debug, Default, PartialEq, Eq)]
pub struct State {
    pub ambiguous: bool,
    pub version_mismatch: bool,
}

/// The XML of the derivation that a left parse names; refusals 17 to 22.
pub fn convert(
    plain: &Plain,
    record: &[char],
    numbers: &[u32],
    state: State,
) -> Result<String, Refusal> {
    let document = Document::new(plain, record, numbers);
    document.judge(plain.rules[0].mark)?;
    Ok(document.write(state))
}

/// The document that takes the place of the XML when there is no reading.
pub fn fail(version_mismatch: bool, place: usize) -> String {
    let words = if version_mismatch {
        "failed version-mismatch"
    } else {
        "failed"
    };
    format!("<fail{} place='{place}'/>", state_attributes(words))
}

fn state_attributes(words: &str) -> String {
    format!(" xmlns:ixml='{NAMESPACE}' ixml:state='{words}'")
}

/// The elements to write. Text is borrowed from the record and the grammar.
struct Document<'a> {
    /// The root's element comes first. For a deleted root it stands for what
    /// lies outside every element, and its name is not written.
    elements: Vec<Element<'a>>,
    root_is_deleted: bool,
}

struct Element<'a> {
    name: &'a str,
    attributes: Vec<Attribute<'a>>,
    content: Vec<Content<'a>>,
}

struct Attribute<'a> {
    name: &'a str,
    value: Vec<&'a [char]>,
}

enum Content<'a> {
    Element(usize),
    Text(&'a [char]),
}

/// A node of the derivation whose symbols are not all visited.
struct Open<'a> {
    symbols: std::slice::Iter<'a, Symbol>,
    kind: Kind,
}

#[derive(Clone, Copy, PartialEq, Eq)]
enum Kind {
    Element,
    Attribute,
    /// Deleted, or anything inside an attribute.
    Transparent,
}

impl<'a> Document<'a> {
    /// Follows the left parse. A root marked as attribute is built as an
    /// element, as which it is judged.
    fn new(plain: &'a Plain, record: &'a [char], numbers: &[u32]) -> Document<'a> {
        let root = &plain.rules[0];
        let mut builder = Builder {
            document: Document {
                elements: vec![Element::new(root.name)],
                root_is_deleted: root.mark == Mark::Deleted,
            },
            enclosing: vec![0],
            in_attribute: false,
        };
        let mut place = 0;
        let mut numbers = numbers.iter();
        let mut expand = |rule: usize| {
            let number = *numbers.next().expect("one number for each nonterminal");
            plain.rules[rule].alternatives[number as usize].iter()
        };
        let mut open = vec![Open {
            symbols: expand(0),
            kind: Kind::Element,
        }];
        while let Some(node) = open.last_mut() {
            match node.symbols.next() {
                None => {
                    builder.close(node.kind);
                    open.pop();
                }
                Some(&Symbol::Terminal { terminal, deleted }) => {
                    let end = place + plain.terminals[terminal].length();
                    if !deleted {
                        builder.text(&record[place..end]);
                    }
                    place = end;
                }
                Some(&Symbol::Insertion(insertion)) => builder.text(&plain.insertions[insertion]),
                Some(&Symbol::Nonterminal { rule, mark }) => {
                    let mark = mark.unwrap_or(plain.rules[rule].mark);
                    let kind = builder.open(plain.rules[rule].name, mark);
                    let symbols = expand(rule);
                    open.push(Open { symbols, kind });
                }
            }
        }
        builder.document
    }

    /// The elements that are written.
    fn written(&self) -> &[Element<'a>] {
        &self.elements[usize::from(self.root_is_deleted)..]
    }

    fn judge(&self, root_mark: Mark) -> Result<(), Refusal> {
        if self.written().iter().any(Element::repeats_attribute) {
            return Err(Refusal::RepeatedAttribute);
        }
        let attributes = || self.elements.iter().flat_map(|e| &e.attributes);
        let element_names = self.written().iter().map(|element| element.name);
        let mut names = element_names.chain(attributes().map(|attribute| attribute.name));
        if !names.all(is_xml_name) {
            return Err(Refusal::NotXmlName);
        }
        let values = attributes().flat_map(|attribute| &attribute.value).copied();
        let texts = self.elements.iter().flat_map(Element::texts);
        if !texts.chain(values).flatten().copied().all(is_xml_character) {
            return Err(Refusal::NotXmlCharacter);
        }
        if root_mark == Mark::Attribute {
            return Err(Refusal::AttributeRoot);
        }
        if self.root_is_deleted && self.document_element().is_none() {
            return Err(Refusal::DeletedRoot);
        }
        if attributes().any(|attribute| attribute.name == "xmlns") {
            return Err(Refusal::AttributeXmlns);
        }
        Ok(())
    }

    /// The one element with nothing beside it, if that is what there is.
    fn document_element(&self) -> Option<usize> {
        if !self.root_is_deleted {
            return Some(0);
        }
        match (
            &self.elements[0].attributes[..],
            &self.elements[0].content[..],
        ) {
            ([], [Content::Element(only)]) => Some(*only),
            _ => None,
        }
    }

    /// Writes with a stack of its own, since elements may lie thousands deep.
    fn write(&self, state: State) -> String {
        let mut out = String::new();
        let mut open: Vec<(&Element, std::slice::Iter<Content>)> = Vec::new();
        let mut next = self.document_element();
        let mut state = state.attributes();
        loop {
            if let Some(element) = next.take() {
                let element = &self.elements[element];
                out.push('<');
                out.push_str(element.name);
                out.push_str(&std::mem::take(&mut state));
                element.write_attributes(&mut out);
                if element.content.is_empty() {
                    out.push_str("/>");
                } else {
                    out.push('>');
                    open.push((element, element.content.iter()));
                }
            }
            let Some((element, content)) = open.last_mut() else {
                return out;
            };
            match content.next() {
                Some(Content::Element(child)) => next = Some(*child),
                Some(Content::Text(text)) => escape(text, false, &mut out),
                None => {
                    out.push_str("</");
                    out.push_str(element.name);
                    out.push('>');
                    open.pop();
                }
            }
        }
    }
}

impl<'a> Element<'a> {
    fn new(name: &'a str) -> Element<'a> {
        Element {
            name,
            attributes: Vec::new(),
            content: Vec::new(),
        }
    }

    fn texts(&self) -> impl Iterator<Item = &'a [char]> + '_ {
        self.content.iter().filter_map(|content| match content {
            Content::Text(text) => Some(*text),
            Content::Element(_) => None,
        })
    }

    fn repeats_attribute(&self) -> bool {
        let mut names: Vec<&str> = self.attributes.iter().map(|a| a.name).collect();
        names.sort_unstable();
        names.windows(2).any(|pair| pair[0] == pair[1])
    }

    fn write_attributes(&self, out: &mut String) {
        for attribute in &self.attributes {
            out.push(' ');
            out.push_str(attribute.name);
            out.push_str("='");
            for text in &attribute.value {
                escape(text, true, out);
            }
            out.push('\'');
        }
    }
}

impl State {
    fn attributes(self) -> Cow<'static, str> {
        match (self.ambiguous, self.version_mismatch) {
            (false, false) => Cow::Borrowed(""),
            (true, false) => state_attributes("ambiguous").into(),
            (false, true) => state_attributes("version-mismatch").into(),
            (true, true) => state_attributes("ambiguous version-mismatch").into(),
        }
    }
}

struct Builder<'a> {
    document: Document<'a>,
    /// The elements around the current place, innermost last.
    enclosing: Vec<usize>,
    in_attribute: bool,
}

impl<'a> Builder<'a> {
    fn innermost(&mut self) -> &mut Element<'a> {
        let innermost = *self.enclosing.last().expect("inside the root");
        &mut self.document.elements[innermost]
    }

    fn open(&mut self, name: &'a str, mark: Mark) -> Kind {
        if self.in_attribute || mark == Mark::Deleted {
            return Kind::Transparent;
        }
        if mark == Mark::Attribute {
            self.in_attribute = true;
            let value = Vec::new();
            self.innermost().attributes.push(Attribute { name, value });
            return Kind::Attribute;
        }
        let element = self.document.elements.len();
        self.document.elements.push(Element::new(name));
        self.innermost().content.push(Content::Element(element));
        self.enclosing.push(element);
        Kind::Element
    }

    fn close(&mut self, kind: Kind) {
        match kind {
            Kind::Element => {
                self.enclosing.pop();
            }
            Kind::Attribute => self.in_attribute = false,
            Kind::Transparent => {}
        }
    }

    /// Text of the attribute that is open, or else of the innermost element.
    fn text(&mut self, text: &'a [char]) {
        let in_attribute = self.in_attribute;
        let element = self.innermost();
        match element.attributes.last_mut() {
            Some(attribute) if in_attribute => attribute.value.push(text),
            _ => element.content.push(Content::Text(text)),
        }
    }
}

/// Appends characters of text or of an attribute's value.
fn escape(text: &[char], in_value: bool, out: &mut String) {
    for &character in text {
        match character {
            '&' => out.push_str("&amp;"),
            '<' => out.push_str("&lt;"),
            '>' => out.push_str("&gt;"),
            '\r' => out.push_str("&#xD;"),
            '\'' if in_value => out.push_str("&apos;"),
            '\n' if in_value => out.push_str("&#xA;"),
            '\t' if in_value => out.push_str("&#x9;"),
            _ => out.push(character),
        }
    }
}

/// `Char` of XML 1.0.
fn is_xml_character(character: char) -> bool {
    matches!(character,
        '\t' | '\n' | '\r' | '\u{20}'..='\u{D7FF}' | '\u{E000}'..='\u{FFFD}' | '\u{10000}'..)
}

/// `Name` of XML 1.0, fifth edition.
fn is_xml_name(name: &str) -> bool {
    name.starts_with(is_xml_name_start) && name.chars().all(is_xml_name_character)
}

fn is_xml_name_start(character: char) -> bool {
    matches!(character,
        ':' | 'A'..='Z' | '_' | 'a'..='z'
        | '\u{C0}'..='\u{D6}' | '\u{D8}'..='\u{F6}' | '\u{F8}'..='\u{2FF}'
        | '\u{370}'..='\u{37D}' | '\u{37F}'..='\u{1FFF}' | '\u{200C}'..='\u{200D}'
        | '\u{2070}'..='\u{218F}' | '\u{2C00}'..='\u{2FEF}' | '\u{3001}'..='\u{D7FF}'
        | '\u{F900}'..='\u{FDCF}' | '\u{FDF0}'..='\u{FFFD}' | '\u{10000}'..='\u{EFFFF}')
}

fn is_xml_name_character(character: char) -> bool {
    is_xml_name_start(character)
        || matches!(character,
            '-' | '.' | '0'..='9' | '\u{B7}' | '\u{300}'..='\u{36F}' | '\u{203F}'..='\u{2040}')
}

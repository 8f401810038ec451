//! A small reader of XML, and the document that a reading must become.
//!
//! A document is a list of events, so that elements may lie thousands deep.

use ixml_yardstick::plain::{plain, Symbol};
use ixml_yardstick::syntax::{self, Mark};

#[derive(Clone, Debug, PartialEq, Eq)]
pub enum Event {
    Open {
        name: String,
        /// Names and values in the order in which they stand.
        attributes: Vec<(String, String)>,
    },
    Text(String),
    Close(String),
}

/// Appends text to the text before it.
fn push_text(events: &mut Vec<Event>, text: impl IntoIterator<Item = char>) {
    let mut text = text.into_iter().peekable();
    if text.peek().is_none() {
        return;
    }
    if let Some(Event::Text(before)) = events.last_mut() {
        before.extend(text);
    } else {
        events.push(Event::Text(text.collect()));
    }
}

// ---- Reading XML

/// Reads a document of elements, attributes, text and references: no
/// declaration, comments or the like. The error tells the first fault.
pub fn parse(text: &str) -> Result<Vec<Event>, String> {
    if let Some(wrong) = text.chars().find(|&character| !is_char(character)) {
        return Err(format!("{wrong:?} is no XML character"));
    }
    // Line ends become LF before anything else is looked at.
    let text = text.replace("\r\n", "\n").replace('\r', "\n");
    let mut parser = Parser { rest: &text };
    let mut events = Vec::new();
    let mut open: Vec<String> = Vec::new();
    loop {
        if parser.take("</") {
            let name = parser.name()?;
            parser.spaces();
            parser.expect(">")?;
            if open.pop().as_ref() != Some(&name) {
                return Err(format!("</{name}> closes another element"));
            }
            events.push(Event::Close(name));
        } else if parser.take("<") {
            let name = parser.name()?;
            let attributes = parser.attributes()?;
            open.push(name.clone());
            events.push(Event::Open {
                name: name.clone(),
                attributes,
            });
            if parser.take("/>") {
                open.pop();
                events.push(Event::Close(name));
            } else {
                parser.expect(">")?;
            }
        } else {
            push_text(&mut events, parser.text()?.chars());
        }
        if open.is_empty() {
            return match parser.rest {
                "" => Ok(events),
                rest => Err(format!("{rest:?} behind the document")),
            };
        }
        if parser.rest.is_empty() {
            return Err("the document ends within an element".to_string());
        }
    }
}

struct Parser<'t> {
    rest: &'t str,
}

impl<'t> Parser<'t> {
    fn take(&mut self, wanted: &str) -> bool {
        let rest = self.rest.strip_prefix(wanted);
        self.rest = rest.unwrap_or(self.rest);
        rest.is_some()
    }

    fn expect(&mut self, wanted: &str) -> Result<(), String> {
        let start: String = self.rest.chars().take(20).collect();
        self.take(wanted)
            .then_some(())
            .ok_or_else(|| format!("{wanted:?} should be at {start:?}"))
    }

    /// The characters up to the first that is not of a kind.
    fn while_(&mut self, kind: impl Fn(char) -> bool) -> &'t str {
        let end = self.rest.find(|character| !kind(character));
        let (taken, rest) = self.rest.split_at(end.unwrap_or(self.rest.len()));
        self.rest = rest;
        taken
    }

    fn spaces(&mut self) -> bool {
        !self
            .while_(|character| " \t\n".contains(character))
            .is_empty()
    }

    fn name(&mut self) -> Result<String, String> {
        let name = self.while_(is_name_character);
        if !name.starts_with(is_name_start) {
            return Err(format!("{name:?} is no XML name"));
        }
        Ok(name.to_string())
    }

    fn attributes(&mut self) -> Result<Vec<(String, String)>, String> {
        let mut attributes: Vec<(String, String)> = Vec::new();
        while self.spaces() && self.rest.starts_with(is_name_start) {
            let name = self.name()?;
            self.expect("=")?;
            let quote = if self.take("\"") { '"' } else { '\'' };
            if quote == '\'' {
                self.expect("'")?;
            }
            let value = self.value(quote)?;
            self.expect(&quote.to_string())?;
            if attributes.iter().any(|(other, _)| *other == name) {
                return Err(format!("attribute {name} twice"));
            }
            attributes.push((name, value));
        }
        Ok(attributes)
    }

    /// An attribute's value. White space that is written as itself counts as
    /// spaces.
    fn value(&mut self, quote: char) -> Result<String, String> {
        let mut value = String::new();
        loop {
            let plain = self.while_(|character| character != quote && !"<&".contains(character));
            value.extend(plain.chars().map(|character| match character {
                '\t' | '\n' => ' ',
                other => other,
            }));
            match self.rest.chars().next() {
                Some('&') => value.push(self.reference()?),
                Some('<') => return Err("< in a value".to_string()),
                _ => return Ok(value),
            }
        }
    }

    /// Text up to the next tag.
    fn text(&mut self) -> Result<String, String> {
        let mut text = String::new();
        loop {
            let plain = self.while_(|character| !"<&".contains(character));
            if plain.contains("]]>") {
                return Err("]]> in text".to_string());
            }
            text.push_str(plain);
            if !self.rest.starts_with('&') {
                return Ok(text);
            }
            text.push(self.reference()?);
        }
    }

    fn reference(&mut self) -> Result<char, String> {
        self.expect("&")?;
        let name = self.while_(|character| character != ';' && character != '&');
        self.expect(";")?;
        let number = |digits: &str, radix: u32| {
            let character = u32::from_str_radix(digits, radix)
                .ok()
                .and_then(char::from_u32);
            character.filter(|&character| is_char(character))
        };
        let character = match name {
            "amp" => Some('&'),
            "lt" => Some('<'),
            "gt" => Some('>'),
            "apos" => Some('\''),
            "quot" => Some('"'),
            _ => match name.strip_prefix('#') {
                Some(digits) => match digits.strip_prefix('x') {
                    Some(digits) => number(digits, 16),
                    None => number(digits, 10),
                },
                None => None,
            },
        };
        character.ok_or_else(|| format!("&{name}; is no reference"))
    }
}

/// `Char` of XML 1.0.
fn is_char(character: char) -> bool {
    match character as u32 {
        0x9 | 0xA | 0xD => true,
        code => code >= 0x20 && code != 0xFFFE && code != 0xFFFF,
    }
}

/// `NameStartChar` of XML 1.0, fifth edition, up to U+00FF; the grammars of
/// the tests have no other names.
fn is_name_start(character: char) -> bool {
    match character {
        ':' | '_' => true,
        '\u{D7}' | '\u{F7}' => false,
        _ => character.is_ascii_alphabetic() || ('\u{C0}'..='\u{FF}').contains(&character),
    }
}

fn is_name_character(character: char) -> bool {
    is_name_start(character) || character.is_ascii_digit() || "-.\u{B7}".contains(character)
}

// ---- What a reading must become

/// The document of a left parse, as an XML parser must read it back. The
/// grammar is one that is accepted and none of the refusals 17 to 22 applies.
pub fn document(
    grammar: &str,
    record: &str,
    numbers: &[u32],
    ambiguous: bool,
    version: bool,
) -> Vec<Event> {
    enum Step<'p> {
        Symbol(&'p Symbol),
        CloseElement(String),
        CloseAttribute,
    }
    let grammar = grammar.strip_prefix('\u{FEFF}').unwrap_or(grammar);
    let syntax = syntax::read(grammar).expect("an accepted grammar");
    let plain = plain(&syntax);
    let mut events = Vec::new();
    let mut record = record.chars();
    let mut numbers = numbers.iter();
    // The places of the open elements, and whether an attribute is open.
    let mut elements: Vec<usize> = Vec::new();
    let mut in_attribute = false;
    let root = Symbol::Nonterminal {
        rule: 0,
        mark: None,
    };
    let mut steps = vec![Step::Symbol(&root)];
    while let Some(step) = steps.pop() {
        let text: Vec<char> = match step {
            Step::CloseElement(name) => {
                elements.pop();
                events.push(Event::Close(name));
                continue;
            }
            Step::CloseAttribute => {
                in_attribute = false;
                continue;
            }
            Step::Symbol(&Symbol::Nonterminal { rule, mark }) => {
                let rule = &plain.rules[rule];
                match mark.unwrap_or(rule.mark) {
                    Mark::Element if !in_attribute => {
                        elements.push(events.len());
                        events.push(Event::Open {
                            name: rule.name.to_string(),
                            attributes: Vec::new(),
                        });
                        steps.push(Step::CloseElement(rule.name.to_string()));
                    }
                    Mark::Attribute if !in_attribute => {
                        in_attribute = true;
                        attributes(&mut events, &elements)
                            .push((rule.name.to_string(), String::new()));
                        steps.push(Step::CloseAttribute);
                    }
                    _ => {}
                }
                let number = *numbers.next().expect("a number for each node") as usize;
                let symbols = rule.alternatives[number].iter().rev();
                steps.extend(symbols.map(Step::Symbol));
                continue;
            }
            Step::Symbol(&Symbol::Insertion(insertion)) => plain.insertions[insertion].clone(),
            Step::Symbol(&Symbol::Terminal { terminal, deleted }) => {
                let length = plain.terminals[terminal].length();
                let matched: Vec<char> = record.by_ref().take(length).collect();
                if deleted {
                    continue;
                }
                matched
            }
        };
        if in_attribute {
            let attributes = attributes(&mut events, &elements);
            let (_, value) = attributes.last_mut().expect("the attribute that is open");
            value.extend(text);
        } else {
            push_text(&mut events, text);
        }
    }
    assert!(record.next().is_none() && numbers.next().is_none());
    add_state(&mut events, ambiguous, version);
    events
}

/// The attributes of the innermost open element.
fn attributes<'e>(events: &'e mut [Event], elements: &[usize]) -> &'e mut Vec<(String, String)> {
    let innermost = *elements.last().expect("an attribute is in an element");
    match &mut events[innermost] {
        Event::Open { attributes, .. } => attributes,
        _ => unreachable!("the place of an open element"),
    }
}

fn add_state(events: &mut [Event], ambiguous: bool, version: bool) {
    let words = [(ambiguous, "ambiguous"), (version, "version-mismatch")];
    let words: Vec<&str> = words
        .iter()
        .filter(|word| word.0)
        .map(|word| word.1)
        .collect();
    if words.is_empty() {
        return;
    }
    let namespace = "http://invisiblexml.org/NS".to_string();
    let state = [
        ("xmlns:ixml".to_string(), namespace),
        ("ixml:state".to_string(), words.join(" ")),
    ];
    attributes(events, &[0]).splice(0..0, state);
}

// ---- Canonical XML

/// A document in the form of Canonical XML 1.0, in which an XML tool can be
/// asked for what it read.
pub fn canonical(events: &[Event]) -> String {
    let mut out = String::new();
    for event in events {
        match event {
            Event::Open { name, attributes } => {
                out.push('<');
                out.push_str(name);
                let mut attributes: Vec<_> = attributes.iter().collect();
                attributes.sort_by_key(|(name, _)| (rank(name), name.clone()));
                for (name, value) in attributes {
                    let value = value
                        .replace('&', "&amp;")
                        .replace('<', "&lt;")
                        .replace('"', "&quot;")
                        .replace('\t', "&#x9;")
                        .replace('\n', "&#xA;")
                        .replace('\r', "&#xD;");
                    out.push_str(&format!(" {name}=\"{value}\""));
                }
                out.push('>');
            }
            Event::Text(text) => out.push_str(
                &text
                    .replace('&', "&amp;")
                    .replace('<', "&lt;")
                    .replace('>', "&gt;")
                    .replace('\r', "&#xD;"),
            ),
            Event::Close(name) => out.push_str(&format!("</{name}>")),
        }
    }
    out
}

/// Namespace declarations come first, then names without a prefix.
fn rank(name: &str) -> u8 {
    match name.split_once(':') {
        Some(("xmlns", _)) => 0,
        None => 1,
        Some(_) => 2,
    }
}

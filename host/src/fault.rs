use std::fmt;

use crate::limits::RECORD_CHARACTERS;
use crate::{category, Error, Reader};

/// Where a record leaves the texts of a grammar, shown as people expect: the
/// record's line with a mark under the place, and what could have followed.
///
/// ```
/// let fault = ixml::Reader::new().fault("a: 'x', ['0'-'2'].", "xy").unwrap();
/// assert_eq!(fault.place(), 1);
/// assert_eq!(fault.to_string(), "xy\n ^\nexpected: 0 1 2");
/// ```
#[derive(Clone, Debug, PartialEq, Eq)]
pub struct Fault {
    record: Vec<char>,
    place: usize,
    /// `None` where a record with one character more would be too long.
    expected: Option<Vec<char>>,
}

impl Fault {
    /// How many of the record's first characters begin some text that the
    /// grammar accepts.
    pub fn place(&self) -> usize {
        self.place
    }

    /// Which characters could have followed there: with each of them, and with
    /// no other of the alphabet, the beginning still begins some text of the
    /// grammar. `None` after 200 characters, where none can be tried.
    pub fn expected(&self) -> Option<&[char]> {
        self.expected.as_deref()
    }
}

impl fmt::Display for Fault {
    fn fmt(&self, formatter: &mut fmt::Formatter<'_>) -> fmt::Result {
        let (before, after) = self.record.split_at(self.place);
        let ends = |c: &char| matches!(c, '\n' | '\r');
        let first = before.iter().rposition(ends).map_or(0, |at| at + 1);
        let last = after.iter().position(ends).unwrap_or(after.len());
        let line = self.record[first..self.place + last].iter();
        let shown: String = line.map(|&c| shown(c)).collect();
        writeln!(formatter, "{shown}")?;
        writeln!(formatter, "{}^", " ".repeat(self.place - first))?;
        match &self.expected {
            None => write!(
                formatter,
                "expected: it cannot be told after 200 characters"
            ),
            Some(characters) if characters.is_empty() => write!(formatter, "expected: the end"),
            Some(characters) => {
                write!(formatter, "expected:")?;
                characters.iter().try_for_each(|&c| match c {
                    ' ' | '\u{0}'..='\u{1f}' | '\u{7f}'..='\u{a0}' | '\u{300}'..='\u{36f}' => {
                        write!(formatter, " #{:x}", u32::from(c))
                    }
                    _ => write!(formatter, " {c}"),
                })
            }
        }
    }
}

/// One column for each character.
fn shown(c: char) -> char {
    match c {
        '\u{0}'..='\u{1f}' | '\u{7f}'..='\u{9f}' | '\u{ad}' | '\u{300}'..='\u{36f}' => '\u{fffd}',
        _ => c,
    }
}

impl Reader {
    /// The fault in a record that has no reading; `None` where there is one, or
    /// another refusal.
    ///
    /// Every character of the alphabet is tried through the library, so that
    /// each that is told is certain.
    pub fn fault(&mut self, grammar: impl AsRef<[u8]>, record: &str) -> Option<Fault> {
        let grammar = grammar.as_ref();
        let place = self.reach(grammar, record)?;
        let record: Vec<char> = record.chars().collect();
        let start: String = record[..place].iter().collect();
        let expected = (place < RECORD_CHARACTERS).then(|| {
            let alphabet = (0..=0x2040).filter(|&code| category(code).is_some());
            alphabet
                .filter_map(char::from_u32)
                .filter(|&c| self.reach(grammar, &format!("{start}{c}")) != Some(place))
                .collect()
        });
        Some(Fault {
            record,
            place,
            expected,
        })
    }

    /// The place of the fault, if there is no reading.
    fn reach(&mut self, grammar: &[u8], record: &str) -> Option<usize> {
        match self.read(grammar, record) {
            Err(Error::NoReading { place, .. }) => Some(place),
            _ => None,
        }
    }
}

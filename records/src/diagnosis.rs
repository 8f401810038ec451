//! What is wrong with a grammar or a record, said as compilers say it: the
//! file, line and column, a sentence, the line, a mark under the place.

use std::fmt;

use ixml::limits::RECORD_CHARACTERS;
use ixml::{Answer, Error};

use crate::place::Spot;
use crate::worker::{Outcome, Worker, NO_READING};

/// A text and where it comes from.
#[derive(Clone, Copy)]
pub struct Source<'a> {
    pub name: &'a str,
    /// The line of the file that the text begins on, from 1.
    pub line: usize,
    pub bytes: &'a [u8],
}

impl<'a> Source<'a> {
    pub fn file(name: &'a str, bytes: &'a [u8]) -> Source<'a> {
        Source {
            name,
            line: 1,
            bytes,
        }
    }
}

/// What is wrong, and where.
#[derive(Clone, Debug, PartialEq, Eq)]
pub struct Diagnosis {
    pub file: String,
    /// None where the refusal names no place.
    pub spot: Option<Spot>,
    pub number: u32,
    pub sentence: String,
    pub notes: Vec<String>,
}

impl fmt::Display for Diagnosis {
    fn fmt(&self, formatter: &mut fmt::Formatter<'_>) -> fmt::Result {
        write!(formatter, "{}", self.file)?;
        if let Some(spot) = &self.spot {
            write!(formatter, ":{}:{}", spot.line, spot.column)?;
        }
        write!(formatter, ": refused {}: {}", self.number, self.sentence)?;
        if let Some(spot) = &self.spot {
            write!(formatter, "\n    {}\n    {}", spot.text, spot.mark)?;
        }
        for note in &self.notes {
            write!(formatter, "\n    {note}")?;
        }
        Ok(())
    }
}

/// Whose fault a refusal is, and what its place counts.
enum At {
    GrammarByte,
    GrammarCharacter,
    Grammar,
    RecordByte,
    RecordCharacter,
    Record,
}

fn at(number: u32) -> At {
    match number {
        2 | 3 => At::GrammarByte,
        5..=10 => At::GrammarCharacter,
        1 | 4 | 11 | 24 | 28 => At::Grammar,
        12 | 13 => At::RecordByte,
        16 => At::RecordCharacter,
        _ => At::Record,
    }
}

const BYTE_ORDER_MARK: &[u8] = b"\xEF\xBB\xBF";

/// The place that an answer names in one of its texts.
fn spot(answer: Answer, grammar: Source, record: Source) -> Option<Spot> {
    let places = answer.places;
    let (source, mut spot) = match at(answer.number) {
        At::GrammarByte => (grammar, Spot::at_byte(grammar.bytes, places.byte)),
        At::GrammarCharacter => {
            let bytes = grammar.bytes;
            let text = bytes.strip_prefix(BYTE_ORDER_MARK).unwrap_or(bytes);
            let text = String::from_utf8_lossy(text);
            (grammar, Spot::at(&text, places.grammar))
        }
        At::RecordByte => (record, Spot::at_byte(record.bytes, places.byte)),
        At::RecordCharacter => {
            let text = String::from_utf8_lossy(record.bytes);
            (record, Spot::at(&text, places.fault))
        }
        At::Grammar | At::Record => return None,
    };
    spot.line += source.line - 1;
    Some(spot)
}

/// The diagnosis of an answer that is a refusal. With a worker it is told what
/// could have followed, by as many calls as the alphabet has characters.
pub fn diagnose(
    answer: Answer,
    grammar: Source,
    record: Source,
    worker: Option<&mut Worker>,
) -> Diagnosis {
    let of_grammar = matches!(
        at(answer.number),
        At::GrammarByte | At::GrammarCharacter | At::Grammar
    );
    let source = if of_grammar { grammar } else { record };
    let mut file = source.name.to_string();
    let spot = spot(answer, grammar, record);
    if spot.is_none() && source.line > 1 {
        file = format!("{file}:{}", source.line);
    }
    let mut notes = Vec::new();
    if let (NO_READING, Some(worker)) = (answer.number, worker) {
        notes = reading_notes(answer.places.fault, grammar.bytes, record.bytes, worker);
    }
    if answer.version {
        notes.push("the grammar names another version than 1.0, and is read as 1.0".into());
    }
    Diagnosis {
        file,
        spot,
        number: answer.number,
        sentence: sentence(answer).to_string(),
        notes,
    }
}

/// A refusal in words.
pub fn sentence(answer: Answer) -> &'static str {
    Error::try_from(answer).map_or("nothing is wrong", Error::sentence)
}

/// What helps to see why there is no reading.
fn reading_notes(place: usize, grammar: &[u8], record: &[u8], worker: &mut Worker) -> Vec<String> {
    let mut notes = Vec::new();
    if let Some(stripped) = without_line_end(record) {
        let fits = matches!(worker.convert(grammar, stripped), Outcome::Converted { .. });
        if fits {
            notes.push(
                "only the line end at the record's end is too much: let the grammar allow it \
                 by `-#d?, -#a?` at the end of its first rule, or give records with --lines"
                    .into(),
            );
            return notes;
        }
    }
    let text = String::from_utf8_lossy(record);
    let length = text.chars().count();
    notes.push(if place == length {
        "the record ends too soon: the grammar accepts texts that go on from here".into()
    } else {
        "no text that the grammar accepts goes on with the character at the mark".into()
    });
    notes.push(match followers(grammar, &text, place, worker) {
        Some(followers) => format!("could follow: {followers}"),
        None => format!("at {RECORD_CHARACTERS} characters it cannot be told what could follow"),
    });
    notes
}

/// The record without a final CR LF or LF, if it has one.
pub fn without_line_end(record: &[u8]) -> Option<&[u8]> {
    let stripped = record.strip_suffix(b"\n")?;
    Some(stripped.strip_suffix(b"\r").unwrap_or(stripped))
}

/// The characters that may stand after the first `place` of a text, each tried
/// through the library; none at the limit of a record.
fn followers(grammar: &[u8], text: &str, place: usize, worker: &mut Worker) -> Option<String> {
    if place >= RECORD_CHARACTERS {
        return None;
    }
    let before: String = text.chars().take(place).collect();
    let mut accepts = |record: String| match worker.read(grammar, record.as_bytes()) {
        Err(answer) if answer.number == NO_READING => answer.places.fault > place,
        Err(_) => false,
        Ok(_) => true,
    };
    let characters: Vec<char> = ixml_yardstick::alphabet::characters()
        .filter(|&character| accepts(format!("{before}{character}")))
        .collect();
    let mut words = spans(&characters);
    if worker.read(grammar, before.as_bytes()).is_ok() {
        words.push("the record's end".into());
    }
    Some(words.join(", "))
}

/// Characters as ixml writes them: those in a row as a range.
fn spans(characters: &[char]) -> Vec<String> {
    let mut words = Vec::new();
    let mut rest = characters;
    while let [first, ..] = rest {
        let in_row = rest
            .iter()
            .zip(*first as u32..)
            .take_while(|(&character, code)| character as u32 == *code)
            .count();
        let (row, more) = rest.split_at(in_row);
        match row {
            [from, _, .., to] => words.push(format!("[{}-{}]", written(*from), written(*to))),
            few => words.extend(few.iter().map(|&character| written(character))),
        }
        rest = more;
    }
    words
}

fn written(character: char) -> String {
    match character {
        '"' => "'\"'".into(),
        ' '..='~' | '\u{A1}'..='\u{AC}' | '\u{AE}'..='\u{17F}' => format!("\"{character}\""),
        _ => format!("#{:x}", character as u32),
    }
}

#[cfg(test)]
mod tests {
    use super::*;

    #[test]
    fn characters_in_a_row() {
        let characters: Vec<char> = "\n\"0123abz".chars().collect();
        let words = spans(&characters).join(" ");
        assert_eq!(words, "#a '\"' [\"0\"-\"3\"] \"a\" \"b\" \"z\"");
    }

    #[test]
    fn line_ends() {
        assert_eq!(without_line_end(b"x\r\n"), Some(&b"x"[..]));
        assert_eq!(without_line_end(b"x\n"), Some(&b"x"[..]));
        assert_eq!(without_line_end(b"x\r"), None);
    }
}

//! The public calls on a grammar and a record.

use crate::judge::accepts;
use crate::limits;
use crate::plain::{plain, Plain};
use crate::productive;
use crate::reading::{self, Reading};
use crate::refusal::{Places, Refusal};
use crate::statics;
use crate::syntax::{self, Grammar};
use crate::text;
use crate::xml::{self, State};

/// The answer of a call.
#[derive(Clone, Copy, Debug, Default, PartialEq, Eq)]
pub struct Answer {
    /// 0, or the number of a refusal.
    pub number: u32,
    /// How many cells of the result buffer are filled.
    pub length: usize,
    /// The record has more than one derivation.
    pub ambiguous: bool,
    /// The prolog names another version than 1.0.
    pub version: bool,
    pub places: Places,
}

impl From<Refusal> for Answer {
    fn from(refusal: Refusal) -> Answer {
        Answer {
            number: refusal.number(),
            places: refusal.places(),
            ..Answer::default()
        }
    }
}

/// Checks a grammar: 0 to 11, and 24.
pub fn check(grammar: &[u8]) -> Answer {
    match accept(grammar) {
        Ok(Accepted { version, .. }) => Answer {
            version,
            ..Answer::default()
        },
        Err(refusal) => refusal.into(),
    }
}

/// Reads a record: 0 to 16, 24, 29 and 23. Of the work tables only the lengths
/// matter. The reading's numbers fill the start of `result`.
pub fn read(
    grammar: &[u8],
    record: &[u8],
    main_table: usize,
    grammar_table: usize,
    result: &mut [u32],
) -> Answer {
    let tables = Tables {
        main: main_table,
        grammar: grammar_table,
    };
    derive(grammar, record, tables, |_, _, reading, _| {
        fill(result, &reading.numbers)
    })
}

/// Converts a record: all refusals. The XML's bytes fill the start of `result`.
pub fn convert(
    grammar: &[u8],
    record: &[u8],
    main_table: usize,
    grammar_table: usize,
    result: &mut [u8],
) -> Answer {
    let tables = Tables {
        main: main_table,
        grammar: grammar_table,
    };
    derive(grammar, record, tables, |plain, record, reading, state| {
        let xml = xml::convert(plain, record, &reading.numbers, state)?;
        fill(result, xml.as_bytes())
    })
}

/// Judges a list: 0 to 15, 24, 25, 17 to 23. Of the second table and of the
/// scratch only the lengths matter. The XML's bytes fill the start of `result`.
pub fn judge(
    grammar: &[u8],
    record: &[u8],
    list: &[u32],
    grammar_table: usize,
    scratch: usize,
    result: &mut [u8],
) -> Answer {
    let outcome = accept(grammar).and_then(|accepted| {
        let record = text::record(record)?;
        if scratch / 2 < list.len() || grammar_table < limits::GRAMMAR_TABLE {
            return Err(Refusal::TableTooShort);
        }
        if !accepts(&accepted.plain, &record, list) {
            return Err(Refusal::NoDerivation);
        }
        let state = State {
            ambiguous: false,
            version_mismatch: accepted.version,
        };
        let xml = xml::convert(&accepted.plain, &record, list, state)?;
        Ok((fill(result, xml.as_bytes())?, accepted.version))
    });
    of_text(outcome)
}

/// The left parse of a derivation other than the chosen one, where the record has
/// two and the job is refused by none of 1 to 14.
pub fn second(grammar: &[u8], record: &[u8]) -> Option<Vec<u32>> {
    let accepted = accept(grammar).ok()?;
    let record = text::record(record).ok()?;
    crate::second::second(&accepted.plain, &record)
}

/// Tidies a grammar: 0 to 11, 24, 28 and 23. The bytes of the tidy text fill
/// the start of `result`.
pub fn tidy(grammar: &[u8], result: &mut [u8]) -> Answer {
    let outcome = accept(grammar).and_then(|accepted| {
        let text = crate::tidy::text(&accepted.syntax);
        if text.len() > limits::GRAMMAR_BYTES {
            return Err(Refusal::TidyTooLong);
        }
        let length = fill(result, text.as_bytes())?;
        Ok((length, accepted.version))
    });
    of_text(outcome)
}

/// The answer to a text of so many bytes, of which no reading was chosen, or to its refusal.
fn of_text(outcome: Result<(usize, bool), Refusal>) -> Answer {
    match outcome {
        Ok((length, version)) => Answer {
            length,
            version,
            ..Answer::default()
        },
        Err(refusal) => refusal.into(),
    }
}

/// A grammar that passed 1 to 11, and 24.
struct Accepted<'t> {
    syntax: Grammar<'t>,
    plain: Plain<'t>,
    version: bool,
}

fn accept(grammar: &[u8]) -> Result<Accepted<'_>, Refusal> {
    let text = text::grammar(grammar)?;
    let syntax = syntax::read(text).map_err(|_| Refusal::NotIxml)?;
    statics::check(&syntax, text)?;
    let known = |version: &Vec<char>| version[..] == ['1', '.', '0'];
    let version = syntax.version.as_ref().is_some_and(|v| !known(v));
    let plain = plain(&syntax);
    if productive::some_unproductive(&plain) {
        return Err(Refusal::UnproductiveRule);
    }
    Ok(Accepted {
        syntax,
        plain,
        version,
    })
}

/// The plain rules, the record's characters and the version mark: 1 to 14, and 24.
pub(crate) fn opened<'t>(
    grammar: &'t [u8],
    record: &[u8],
) -> Result<(Plain<'t>, Vec<char>, bool), Refusal> {
    let accepted = accept(grammar)?;
    Ok((accepted.plain, text::record(record)?, accepted.version))
}

/// The lengths of the work tables that the caller provides.
pub(crate) struct Tables {
    pub main: usize,
    pub grammar: usize,
}

impl Tables {
    pub fn suffice(&self, size: usize, characters: usize) -> bool {
        self.main >= limits::main_table(size, characters) && self.grammar >= limits::GRAMMAR_TABLE
    }
}

/// The stages that reading and converting share; `finish` does the rest and
/// gives the length of the result.
fn derive(
    grammar: &[u8],
    record: &[u8],
    tables: Tables,
    finish: impl FnOnce(&Plain, &[char], &Reading, State) -> Result<usize, Refusal>,
) -> Answer {
    let mut version = false;
    let mut ambiguous = false;
    let outcome = accept(grammar).and_then(|accepted| {
        let record = text::record(record)?;
        let plain = accepted.plain;
        if !tables.suffice(plain.size(), record.len()) {
            return Err(Refusal::TableTooShort);
        }
        version = accepted.version;
        let reading = reading::read(&plain, &record)?;
        ambiguous = reading.ambiguous;
        let state = State {
            ambiguous,
            version_mismatch: version,
        };
        finish(&plain, &record, &reading, state)
    });
    match outcome {
        Ok(length) => Answer {
            number: 0,
            length,
            ambiguous,
            version,
            ..Answer::default()
        },
        Err(Refusal::NoReading(place)) => Answer {
            version,
            ..Refusal::NoReading(place).into()
        },
        Err(refusal) => refusal.into(),
    }
}

/// Copies a result that fits; refusal 23 otherwise, with nothing copied.
fn fill<T: Copy>(buffer: &mut [T], result: &[T]) -> Result<usize, Refusal> {
    let room = buffer.get_mut(..result.len());
    room.ok_or(Refusal::ResultTooLong)?.copy_from_slice(result);
    Ok(result.len())
}

//! The library's calls on slices.

use crate::ffi::lend;
use crate::limits::GRAMMAR_BYTES;
use crate::{Answer, Error};

/// Checks a grammar: the numbers 0 to 11, and 24.
///
/// ```
/// assert_eq!(ixml::check(b"a: 'x'*.").number, 0);
/// assert_eq!(ixml::check(b"a: ['b'-'a'].").number, 9);
/// ```
pub fn check(grammar: &[u8]) -> Answer {
    lend!(ixml_check: of grammar)
}

/// Tidies a grammar: the numbers 0 to 11, 24, 28 and 23.
///
/// With 0 the first bytes of `result`, as many as the answer's length, are the
/// grammar in one layout, in UTF-8. All other bytes of `result`, and with a
/// refusal all of them, are as they were. The tidy text has the same rules,
/// names and marks; tidied again it gives the same bytes. It is at most
/// [`GRAMMAR_BYTES`](crate::limits::GRAMMAR_BYTES) long.
///
/// ```
/// use ixml::limits::GRAMMAR_BYTES;
///
/// let mut result = [0; GRAMMAR_BYTES];
/// let answer = ixml::tidy(b"-a={x}'b'|#0A,[L|'c']+.", &mut result);
/// assert_eq!(answer.number, 0);
/// assert_eq!(&result[..answer.length], b"-a: \"b\"; #a, [L; \"c\"]+.\n");
/// ```
pub fn tidy(grammar: &[u8], result: &mut [u8]) -> Answer {
    lend!(ixml_tidy: of grammar, into result)
}

/// A grammar in the one layout.
///
/// ```
/// assert_eq!(ixml::tidy_text("a={x}'b'|.").as_deref(), Ok("a: \"b\"; .\n"));
/// assert_eq!(ixml::tidy_text("a: b."), Err(ixml::Error::UndefinedName { place: 3 }));
/// ```
pub fn tidy_text(grammar: impl AsRef<[u8]>) -> Result<String, Error> {
    let grammar = grammar.as_ref();
    let mut result = [0; GRAMMAR_BYTES];
    let answer = tidy(grammar, &mut result).ok();
    let answer = answer.map_err(|error| error.quoting(grammar, b""))?;
    let text = result[..answer.length].to_vec();
    Ok(String::from_utf8(text).expect("the text of a grammar is UTF-8"))
}

/// Reads a record: the numbers 0 to 16, 24, 29 and 23.
///
/// With 0 the first numbers of `result`, as many as the answer's length, are
/// the chosen reading: the left parse of a derivation. All other cells of
/// `result`, and with a refusal all of them, are as they were. A reading has
/// at most [`READING_NUMBERS`](crate::limits::READING_NUMBERS).
///
/// The tables are scratch: what they hold before a call sways nothing. The
/// lengths that they need are [`main_table`](crate::limits::main_table) and
/// [`GRAMMAR_TABLE`](crate::limits::GRAMMAR_TABLE).
///
/// ```
/// use ixml::limits::{main_table_for, GRAMMAR_TABLE, READING_NUMBERS};
///
/// let record = b"xx";
/// let mut main_table = vec![0; main_table_for(record)];
/// let mut grammar_table = vec![0; GRAMMAR_TABLE];
/// let mut result = vec![0; READING_NUMBERS];
/// let answer = ixml::read(
///     b"a: 'x'*.",
///     record,
///     &mut main_table,
///     &mut grammar_table,
///     &mut result,
/// );
/// assert_eq!(answer.number, 0);
/// assert_eq!(result[..answer.length], [0, 0, 0, 1]);
/// ```
pub fn read(
    grammar: &[u8],
    record: &[u8],
    main_table: &mut [u32],
    grammar_table: &mut [u32],
    result: &mut [u32],
) -> Answer {
    lend!(ixml_read: of grammar, of record, into main_table, into grammar_table, into result)
}

/// The same by the plain engine, which fills the whole main table: far slower,
/// and proved to give the same answer and the same `result` as [`read`].
pub fn read_plain(
    grammar: &[u8],
    record: &[u8],
    main_table: &mut [u32],
    grammar_table: &mut [u32],
    result: &mut [u32],
) -> Answer {
    lend!(ixml_read_plain: of grammar, of record, into main_table, into grammar_table, into result)
}

/// Converts a record to XML: all numbers but 25 to 28.
///
/// With 0 the first bytes of `result`, as many as the answer's length, are the
/// XML of the chosen reading, in UTF-8. All other bytes of `result`, and with a
/// refusal all of them, are as they were.
///
/// The tables are scratch, as for [`read`].
///
/// ```
/// use ixml::limits::{main_table, GRAMMAR_TABLE};
///
/// // The grammar is of size 2, the record has one character.
/// let mut main_table = vec![0; main_table(2, 1)];
/// let mut grammar_table = vec![0; GRAMMAR_TABLE];
/// let mut result = *b"..........";
/// let answer = ixml::convert(
///     b"a: 'x'.",
///     b"x",
///     &mut main_table,
///     &mut grammar_table,
///     &mut result,
/// );
/// assert_eq!((answer.number, answer.length), (0, 8));
/// assert_eq!(&result, b"<a>x</a>..");
/// ```
pub fn convert(
    grammar: &[u8],
    record: &[u8],
    main_table: &mut [u32],
    grammar_table: &mut [u32],
    result: &mut [u8],
) -> Answer {
    lend!(ixml_convert: of grammar, of record, into main_table, into grammar_table, into result)
}

/// Judges a list of numbers, whoever made it: the numbers 0 to 15, 17 to 25.
///
/// The list is accepted exactly when, used to its last number, it is the left
/// parse of a derivation of the record. Then, with 0, the first bytes of
/// `result`, as many as the answer's length, are the XML of that derivation, in
/// UTF-8, with no word on ambiguity. All other bytes of `result`, and with a
/// refusal all of them, are as they were.
///
/// The list may have any length. `scratch` needs two numbers for each entry, and
/// what it holds before a call sways nothing.
///
/// ```
/// use ixml::limits::GRAMMAR_TABLE;
///
/// let grammar = b"a: a; 'x'.";
/// let grammar_table = vec![0; GRAMMAR_TABLE];
/// let mut result = [0; 64];
/// let mut judge = |list: &[u32]| {
///     let mut scratch = vec![0; 2 * list.len()];
///     ixml::judge(grammar, b"x", list, &grammar_table, &mut scratch, &mut result)
/// };
/// assert_eq!(judge(&[1]).number, 0);
/// assert_eq!(judge(&[0, 0, 1]).number, 0);
/// assert_eq!(judge(&[1, 1]).number, 25);
/// ```
pub fn judge(
    grammar: &[u8],
    record: &[u8],
    list: &[u32],
    grammar_table: &[u32],
    scratch: &mut [u64],
    result: &mut [u8],
) -> Answer {
    lend!(ixml_judge: of grammar, of record, of list, of grammar_table, into scratch, into result)
}

//! Limits of a job, and the lengths of the tables that it needs.

/// Longest grammar, in bytes; a byte order mark counts.
pub const GRAMMAR_BYTES: usize = 4096;

/// Greatest size of a grammar: the sum, over all alternatives of the plain
/// rules, of their symbols plus 1.
pub const GRAMMAR_SIZE: usize = 512;

/// Longest record, in characters.
pub const RECORD_CHARACTERS: usize = 200;

/// Most numbers of a reading.
pub const READING_NUMBERS: usize = 4096;

/// Length of the grammar table, the same for every job.
pub const GRAMMAR_TABLE: usize = 16_384;

/// Length of the state of a read in rounds, the same for every job.
pub const STATE: usize = 4904;

/// Length of a main table that is enough for every job.
pub const MAIN_TABLE: usize = main_table(GRAMMAR_SIZE, RECORD_CHARACTERS);

/// Length of the main table that a grammar of this size needs for a record of
/// so many characters. A size or a count above the limits stands for the limit:
/// such a job is refused before its tables are looked at.
///
/// ```
/// use ixml::limits::{main_table, MAIN_TABLE};
///
/// assert_eq!(main_table(6, 0), 6);
/// assert_eq!(main_table(512, 200), 10_394_112);
/// assert_eq!(main_table(usize::MAX, usize::MAX), MAIN_TABLE);
/// ```
pub const fn main_table(size: usize, characters: usize) -> usize {
    let size = least(size, GRAMMAR_SIZE);
    let characters = least(characters, RECORD_CHARACTERS);
    size * (characters + 1) * (characters + 2) / 2
}

/// Length of a main table that is enough for this record, whatever the grammar.
///
/// ```
/// use ixml::limits::{main_table, main_table_for};
///
/// assert_eq!(main_table_for("é!".as_bytes()), main_table(512, 2));
/// ```
pub fn main_table_for(record: &[u8]) -> usize {
    main_table(GRAMMAR_SIZE, characters(record))
}

/// How many characters a text in UTF-8 has: its bytes that continue none.
pub(crate) fn characters(text: &[u8]) -> usize {
    let begins = |byte: &&u8| **byte & 0xC0 != 0x80;
    text.iter().filter(begins).count()
}

const fn least(one: usize, other: usize) -> usize {
    if one < other {
        one
    } else {
        other
    }
}

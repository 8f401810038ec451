//! Every limit of a job, each under one name.

/// Longest grammar text, in bytes; a byte order mark counts.
pub const GRAMMAR_BYTES: usize = 4096;

/// Longest record, in characters.
pub const RECORD_CHARACTERS: usize = 200;

/// Greatest size of a grammar: the sum of symbols plus 1 over all plain alternatives.
pub const GRAMMAR_SIZE: usize = 512;

/// Deepest nesting of round brackets and, counted apart, of comments.
pub const NESTING: usize = 16;

/// Most numbers in a reading.
pub const READING_NUMBERS: usize = 4096;

/// Length of the grammar table that a caller must provide.
pub const GRAMMAR_TABLE: usize = 16_384;

/// Longest record file that the program looks into, in bytes.
pub const PROGRAM_RECORD_BYTES: usize = 4096;

/// Length of the main table that the program provides.
pub const PROGRAM_MAIN_TABLE: usize = 16_384;

/// Bytes that the program provides for a result.
pub const PROGRAM_RESULT_BYTES: usize = 65_536;

/// Length of the main table that a job needs: one number for each dot
/// position and span. Only meant for sizes and records within the limits,
/// where the product cannot overflow.
pub const fn main_table(size: usize, characters: usize) -> usize {
    size * (characters + 1) * (characters + 2) / 2
}

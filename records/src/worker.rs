//! One record after the other through the proved library, in memory that is kept.

use ixml::limits::{main_table_for, GRAMMAR_TABLE, READING_NUMBERS};
use ixml::{Answer, Error};

/// Bytes that the first attempt provides for the XML.
const XML_BYTES: usize = 1 << 16;

/// What came of a record.
#[derive(Clone, Debug, PartialEq, Eq)]
pub enum Outcome {
    Converted {
        xml: String,
        ambiguous: bool,
        version_mismatch: bool,
    },
    /// The number is not 0.
    Refused(Answer),
}

/// The same in a word. The order is that of a report's table.
#[derive(Clone, Copy, Debug, PartialEq, Eq, PartialOrd, Ord, Hash)]
pub enum State {
    Converted,
    Ambiguous,
    NoReading,
    Refused,
}

impl State {
    pub const ALL: [State; 4] = [
        State::Converted,
        State::Ambiguous,
        State::NoReading,
        State::Refused,
    ];

    /// As JSON and reports write it.
    pub fn word(self) -> &'static str {
        match self {
            State::Converted => "converted",
            State::Ambiguous => "ambiguous",
            State::NoReading => "no reading",
            State::Refused => "refused",
        }
    }
}

/// The number of "no reading".
pub const NO_READING: u32 = 16;

impl Outcome {
    pub fn state(&self) -> State {
        match self {
            Outcome::Converted {
                ambiguous: true, ..
            } => State::Ambiguous,
            Outcome::Converted { .. } => State::Converted,
            Outcome::Refused(answer) if answer.number == NO_READING => State::NoReading,
            Outcome::Refused(_) => State::Refused,
        }
    }
}

/// Tables and buffers for one thread. They grow to what the longest record
/// needs, at most 42 MB.
#[derive(Default)]
pub struct Worker {
    main_table: Vec<u32>,
    grammar_table: Vec<u32>,
    numbers: Vec<u32>,
    xml: Vec<u8>,
}

impl Worker {
    /// Converts a record.
    pub fn convert(&mut self, grammar: &[u8], record: &[u8]) -> Outcome {
        self.provide_tables(record);
        provide(&mut self.xml, XML_BYTES);
        loop {
            let answer = ixml::convert(
                grammar,
                record,
                &mut self.main_table,
                &mut self.grammar_table,
                &mut self.xml,
            );
            match answer.ok() {
                Ok(answer) => {
                    let xml = self.xml[..answer.length].to_vec();
                    return Outcome::Converted {
                        xml: String::from_utf8(xml).expect("the library writes UTF-8"),
                        ambiguous: answer.ambiguous,
                        version_mismatch: answer.version,
                    };
                }
                Err(Error::ResultTooLong) => {
                    let more = 8 * self.xml.len();
                    provide(&mut self.xml, more);
                }
                Err(_) => return Outcome::Refused(answer),
            }
        }
    }

    /// The left parse of the chosen reading, and whether there is another.
    pub fn read(&mut self, grammar: &[u8], record: &[u8]) -> Result<(Vec<u32>, bool), Answer> {
        self.provide_tables(record);
        provide(&mut self.numbers, READING_NUMBERS);
        let answer = ixml::read(
            grammar,
            record,
            &mut self.main_table,
            &mut self.grammar_table,
            &mut self.numbers,
        );
        match answer.number {
            0 => Ok((self.numbers[..answer.length].to_vec(), answer.ambiguous)),
            _ => Err(answer),
        }
    }

    fn provide_tables(&mut self, record: &[u8]) {
        provide(&mut self.main_table, main_table_for(record));
        provide(&mut self.grammar_table, GRAMMAR_TABLE);
    }
}

/// Makes a buffer at least so long. What it held is of no use.
fn provide<T: Clone + Default>(buffer: &mut Vec<T>, length: usize) {
    if buffer.len() < length {
        *buffer = vec![T::default(); length];
    }
}

/// The size of an accepted grammar, as the library has it: the shortest main
/// table with which the empty record is not refused for want of room.
pub fn size(grammar: &[u8]) -> usize {
    const TABLE_TOO_SHORT: u32 = 15;
    let mut grammar_table = vec![0; GRAMMAR_TABLE];
    let mut fits = |length: usize| {
        let mut main_table = vec![0; length];
        let mut numbers = [0; 1];
        let answer = ixml::read(
            grammar,
            b"",
            &mut main_table,
            &mut grammar_table,
            &mut numbers,
        );
        answer.number != TABLE_TOO_SHORT
    };
    let (mut low, mut high) = (0, ixml::limits::GRAMMAR_SIZE);
    while low < high {
        let middle = (low + high) / 2;
        if fits(middle) {
            high = middle;
        } else {
            low = middle + 1;
        }
    }
    low
}

/// The longest record that a grammar of the size can be given with a main table
/// of so many numbers; none if not even the empty one.
pub fn longest(size: usize, table: usize) -> Option<usize> {
    (0..=ixml::limits::RECORD_CHARACTERS)
        .rev()
        .find(|&characters| ixml::limits::main_table(size, characters) <= table)
}

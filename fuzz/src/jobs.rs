//! One job: a grammar and a record, through every call, in lengths around those
//! that are needed.

use std::fmt::Debug;

use ixml::limits::{main_table, GRAMMAR_TABLE, READING_NUMBERS, RECORD_CHARACTERS, STATE};
use ixml::Answer;
use ixml_yardstick::gen::{self, Random};

use crate::cut::Lengths;
use crate::pages::Pages;

/// Cells of a result buffer, at most.
const RESULT: usize = 1 << 16;

/// The longest grammar and record that are made up, in bytes.
const TEXT: usize = 1 << 13;

/// Records that the plain engine is given have fewer bytes, and so have those that
/// are read in rounds.
const SHORT: usize = 30;

/// What did not agree, in words.
pub type Difference = String;

/// Memory for calls.
pub struct Bench {
    grammar: Pages<u8>,
    record: Pages<u8>,
    pub main_table: Pages<u32>,
    pub grammar_table: Pages<u32>,
    pub state: Pages<u32>,
    pub numbers: Pages<u32>,
    pub bytes: Pages<u8>,
}

impl Bench {
    pub fn new() -> Bench {
        Bench {
            grammar: Pages::new(TEXT),
            record: Pages::new(TEXT),
            main_table: Pages::new(ixml::limits::MAIN_TABLE),
            grammar_table: Pages::new(GRAMMAR_TABLE + 1),
            state: Pages::new(STATE),
            numbers: Pages::new(READING_NUMBERS + 1),
            bytes: Pages::new(RESULT),
        }
    }

    /// Runs a made-up job; gives how many calls of the library it took.
    pub fn job(&mut self, random: &mut Random) -> Result<u64, Difference> {
        let (grammar, record) = texts(random);
        let at_end = random.chance(75);
        let says = |call: &str, what: &dyn Debug| {
            let (grammar, record) = (grammar.escape_ascii(), record.escape_ascii());
            format!("{call}: grammar {grammar} record {record}\n{what:?}")
        };
        if record.len() < SHORT && random.chance(20) {
            let lengths = Lengths {
                main: main_length(random, &grammar, &record),
                table: table_length(random),
                numbers: near(random, 30, READING_NUMBERS),
                bytes: near(random, 100, RESULT),
            };
            let cut = self.cut(&grammar, &record, lengths, random);
            return cut.map_err(|what| says("cut", &(what, lengths)));
        }
        let grammar_text = copy(&mut self.grammar, &grammar, at_end);
        let record_text = copy(&mut self.record, &record, at_end);

        let checked = ixml::check(grammar_text);
        let expected = Answer::from(ixml_yardstick::check(&grammar));
        if checked != expected {
            return Err(says("check", &(checked, expected)));
        }

        let room = near(random, 200, RESULT);
        let bytes = dirty(&mut self.bytes, room, at_end, random);
        let mut like = bytes.to_vec();
        let tidied = ixml::tidy(grammar_text, bytes);
        let expected = Answer::from(ixml_yardstick::tidy(&grammar, &mut like));
        if tidied != expected || *bytes != like[..] {
            return Err(says("tidy", &(tidied, expected, room)));
        }

        let main = main_length(random, &grammar, &record);
        let table = table_length(random);
        let main_table = dirty(&mut self.main_table, main, at_end, random);
        let grammar_table = dirty(&mut self.grammar_table, table, at_end, random);
        let plain = random.chance(10) && record.len() < SHORT;
        let room = near(random, 30, READING_NUMBERS);
        let numbers = dirty(&mut self.numbers, room, at_end, random);
        let mut like = numbers.to_vec();
        let call = if plain { ixml::read_plain } else { ixml::read };
        let read = call(grammar_text, record_text, main_table, grammar_table, numbers);
        let expected = Answer::from(ixml_yardstick::read(&grammar, &record, main, table, &mut like));
        if read != expected || *numbers != like[..] {
            return Err(says("read", &(read, expected, main, table, room, plain)));
        }

        let room = near(random, 100, RESULT);
        let bytes = dirty(&mut self.bytes, room, at_end, random);
        let mut like = bytes.to_vec();
        let converted = ixml::convert(grammar_text, record_text, main_table, grammar_table, bytes);
        let expected = Answer::from(ixml_yardstick::convert(&grammar, &record, main, table, &mut like));
        if converted != expected || *bytes != like[..] {
            return Err(says("convert", &(converted, expected, main, table, room)));
        }
        Ok(4)
    }
}

    /// Just enough for the job mostly, if that can be told.
    fn main_length(random: &mut Random, grammar: &[u8], record: &[u8]) -> usize {
        let characters = record.iter().filter(|&byte| byte & 0xC0 != 0x80).count();
        let size = size(grammar).unwrap_or(7);
        let need = main_table(size, characters.min(RECORD_CHARACTERS));
        match random.below(20) {
            0 => need.saturating_sub(1),
            1 => need + 1,
            2 => random.below(need + 1),
            _ => need,
        }
    }

/// Just enough mostly.
fn table_length(random: &mut Random) -> usize {
    match random.below(20) {
        0 => GRAMMAR_TABLE - 1,
        1 => 0,
        2 => GRAMMAR_TABLE + 1,
        _ => GRAMMAR_TABLE,
    }
}

/// The size of an accepted grammar, as the yardstick has it.
fn size(grammar: &[u8]) -> Option<usize> {
    (ixml_yardstick::check(grammar).number == 0).then_some(())?;
    let text = ixml_yardstick::text::grammar(grammar).ok()?;
    let syntax = ixml_yardstick::syntax::read(text).ok()?;
    Some(ixml_yardstick::statics::size(&syntax))
}

/// A grammar and a record, now and then damaged.
fn texts(random: &mut Random) -> (Vec<u8>, Vec<u8>) {
    let job = gen::any_job(random);
    let (mut grammar, mut record) = (job.grammar.into_bytes(), job.record.into_bytes());
    for text in [&mut grammar, &mut record] {
        if random.chance(5) {
            damage(random, text);
        }
        text.truncate(TEXT);
    }
    (grammar, record)
}

/// Changes, adds or drops a byte; or adds what is outside the alphabet; or many.
fn damage(random: &mut Random, text: &mut Vec<u8>) {
    let at = random.below(text.len() + 1);
    match random.below(6) {
        0 => text.insert(at, random.number() as u8),
        1 if at < text.len() => text[at] = random.number() as u8,
        2 if at < text.len() => drop(text.remove(at)),
        3 => text.extend("\u{180}".bytes()),
        4 => text.extend(std::iter::repeat_n(b' ', random.below(5000))),
        _ => text.truncate(at),
    }
}

/// A number of cells: mostly ample, often small, sometimes none.
fn near(random: &mut Random, small: usize, most: usize) -> usize {
    match random.below(10) {
        0 => 0,
        1..=3 => random.below(small),
        _ => most,
    }
}

/// A text at a guard page.
fn copy<'a>(pages: &'a mut Pages<u8>, text: &[u8], at_end: bool) -> &'a [u8] {
    let cells = pages.lend(text.len(), at_end);
    cells.copy_from_slice(text);
    cells
}

pub trait Cell: Copy {
    fn of(number: u64) -> Self;
}

impl Cell for u8 {
    fn of(number: u64) -> u8 {
        (number >> 32) as u8
    }
}

impl Cell for u32 {
    fn of(number: u64) -> u32 {
        (number >> 32) as u32
    }
}

/// Cells that hold anything. Of a long table only the first, and some others, are
/// made new: the rest holds what earlier jobs left.
pub fn dirty<'a, T: Cell>(
    pages: &'a mut Pages<T>,
    length: usize,
    at_end: bool,
    random: &mut Random,
) -> &'a mut [T] {
    let cells = pages.lend(length, at_end);
    let (mut number, step) = (random.number(), 1 + length / 4096);
    for cell in cells.iter_mut().step_by(step) {
        number = number.wrapping_mul(0x5851_F42D_4C95_7F2D).wrapping_add(0x1405_7B7E_F767_814F);
        *cell = T::of(number);
    }
    cells
}

#[cfg(test)]
mod tests {
    use super::*;

    #[test]
    fn some_jobs() {
        let mut bench = Bench::new();
        for seed in 0..3000 {
            if let Err(difference) = bench.job(&mut Random::new(seed)) {
                panic!("seed {seed}: {difference}");
            }
        }
    }
}

//! A read in rounds, in memory with guard pages: as the yardstick's, or forged.

use std::fmt::Debug;

use ixml::limits::STATE;
use ixml::rounds::{finish_convert, finish_read, round, start, State};
use ixml::{Answer, Progress};
use ixml_yardstick::cut::{self, Lent};
use ixml_yardstick::gen::Random;

use crate::jobs::{dirty, Bench, Difference};

/// Most rounds that are asked for.
const ROUNDS: usize = 60;

/// The lengths of what a job lends.
#[derive(Clone, Copy, Debug)]
pub struct Lengths {
    pub main: usize,
    pub table: usize,
    pub numbers: usize,
    pub bytes: usize,
}

fn same(what: &str, got: impl Debug + PartialEq, expected: impl Debug) -> Result<(), Difference> {
    let (got, expected) = (format!("{got:?}"), format!("{expected:?}"));
    match got == expected {
        true => Ok(()),
        false => Err(format!("{what}: {got}, not {expected}")),
    }
}

impl Bench {
    /// Starts a read, does rounds and ends it; gives how many calls that took.
    pub fn cut(
        &mut self,
        grammar: &[u8],
        record: &[u8],
        lengths: Lengths,
        random: &mut Random,
    ) -> Result<u64, Difference> {
        let at_end = random.chance(75);
        let main = dirty(&mut self.main_table, lengths.main, at_end, random);
        let second = dirty(&mut self.grammar_table, lengths.table, at_end, random);
        let state = dirty(&mut self.state, STATE, at_end, random);
        let state: &mut State = state.try_into().expect("a state");
        let lent = Lent {
            grammar,
            record,
            main_table: lengths.main,
            grammar_table: lengths.table,
        };
        let (expected, mut like) = cut::start(lent);
        let started = start(grammar, record, main, second, state);
        same("start", started, Progress::from(expected))?;
        let asked = random.below(ROUNDS);
        for _ in 0..asked {
            let expected = Progress::from(like.round(lent));
            let done = round(grammar, record, main, second, state);
            same("round", done, expected)?;
        }
        let forged = random.chance(30);
        if forged {
            forge(main, state, random);
        }
        let kept = (main.to_vec(), *state);
        let read = Read {
            lent,
            main,
            second,
            state,
            like,
            forged,
        };
        read.end(dirty(&mut self.numbers, lengths.numbers, at_end, random))?;
        read.end_as_xml(dirty(&mut self.bytes, lengths.bytes, at_end, random))?;
        let left = (read.main.to_vec(), *read.state) == kept;
        same("table and state after the ends", left, true)?;
        Ok(3 + asked as u64)
    }
}

/// A read that is to be ended.
struct Read<'a> {
    lent: Lent<'a>,
    main: &'a [u32],
    second: &'a [u32],
    state: &'a State,
    like: cut::State,
    forged: bool,
}

impl Read<'_> {
    fn end(&self, numbers: &mut [u32]) -> Result<(), Difference> {
        let (
            Lent {
                grammar, record, ..
            },
            main,
        ) = (self.lent, self.main);
        let mut like = numbers.to_vec();
        let read = finish_read(grammar, record, main, self.second, self.state, numbers);
        if !self.forged {
            let expected = Progress::from(self.like.finish_read(self.lent, &mut like));
            same("end", read, expected)?;
        } else if !refused(read) {
            let (main, table) = (self.lent.main_table, self.lent.grammar_table);
            let uncut = ixml_yardstick::read(grammar, record, main, table, &mut like);
            same("a forged end", read.answer, Answer::from(uncut))?;
        }
        same("numbers", &*numbers, &like[..])
    }

    fn end_as_xml(&self, bytes: &mut [u8]) -> Result<(), Difference> {
        let (
            Lent {
                grammar, record, ..
            },
            main,
        ) = (self.lent, self.main);
        let mut like = bytes.to_vec();
        let read = finish_convert(grammar, record, main, self.second, self.state, bytes);
        if !self.forged {
            let expected = Progress::from(self.like.finish_convert(self.lent, &mut like));
            same("end as XML", read, expected)?;
        } else if !refused(read) {
            let (main, table) = (self.lent.main_table, self.lent.grammar_table);
            let uncut = ixml_yardstick::convert(grammar, record, main, table, &mut like);
            same("a forged end as XML", read.answer, Answer::from(uncut))?;
        }
        same("bytes", &*bytes, &like[..])
    }
}

fn refused(end: Progress) -> bool {
    [15, 26, 27].contains(&end.answer.number)
}

/// Alters a cell of the table or of the state, or says that the read is finished.
fn forge(main: &mut [u32], state: &mut State, random: &mut Random) {
    let number = match random.below(4) {
        0 => u32::MAX,
        1 => random.below(6) as u32,
        2 => 1 << random.below(32),
        _ => random.number() as u32,
    };
    match random.below(4) {
        0 => state[random.below(STATE)] = number,
        1 => state[random.below(8)] = number,
        _ if main.is_empty() => {}
        _ => main[random.below(main.len())] = number,
    }
    if random.chance(70) {
        state[2] = 1;
    }
}

//! Memory for a read in rounds, and what every call must leave of it.

use ixml::limits::{GRAMMAR_TABLE, READING_NUMBERS, STATE};
use ixml::rounds::{finish_convert, finish_read, round, start, State};
use ixml::{Answer, Progress};
use ixml_yardstick::cut;

use super::lent::{Cell, Lent};
use super::{yardstick, Job};

/// Bytes of XML that there is room for.
const XML: usize = 1 << 16;

/// Main table and state of a read, a grammar table and buffers, between guards.
pub struct Memory {
    pub main: Lent<u32>,
    pub second: Lent<u32>,
    pub state: Lent<u32>,
    numbers: Lent<u32>,
    xml: Lent<u8>,
    seed: u32,
}

impl Memory {
    /// As much as the job needs, filled with a pattern made from the seed.
    pub fn of(job: &Job, seed: u32) -> Memory {
        Memory {
            main: Lent::new(job.main_table().unwrap_or(7), seed),
            second: Lent::new(GRAMMAR_TABLE, seed),
            state: Lent::new(STATE, seed),
            numbers: Lent::new(READING_NUMBERS, seed),
            xml: Lent::new(XML, seed),
            seed,
        }
    }

    /// With so many numbers less, or more, of a main table and of a grammar table.
    pub fn resized(&mut self, main: isize, second: isize) {
        let longer = |length: usize, by: isize| length.saturating_add_signed(by);
        self.main.reuse(longer(self.main.cells().len(), main));
        self.second.reuse(longer(self.second.cells().len(), second));
    }

    pub fn start(&mut self, job: &Job) -> Progress {
        let table = self.main.cells().to_vec();
        let state = state(&mut self.state);
        let (main, second) = (self.main.lend(), self.second.cells());
        let progress = start(&job.grammar, &job.record, main, second, state);
        assert_eq!(progress.rounds, 0, "{job:?}");
        if progress.answer.number != 0 {
            assert!(self.main.cells() == table, "{job:?}");
            assert!(self.state.cells().iter().all(|&cell| cell == 0), "{job:?}");
        }
        self.assert_guarded(job);
        progress
    }

    pub fn round(&mut self, job: &Job) -> Progress {
        let before = self.kept();
        let finished = self.is_finished();
        let state = state(&mut self.state);
        let (main, second) = (self.main.lend(), self.second.cells());
        let progress = round(&job.grammar, &job.record, main, second, state);
        if progress.answer.number != 0 || finished {
            assert!(self.kept() == before, "{job:?} {progress:?}");
        }
        assert_eq!(
            (progress.answer.length, progress.answer.ambiguous),
            (0, false)
        );
        self.assert_guarded(job);
        progress
    }

    /// The end of a read as numbers.
    pub fn read(&mut self, job: &Job) -> (Progress, Vec<u32>) {
        let before = self.kept();
        self.numbers.renew(READING_NUMBERS, self.seed);
        let (main, second) = (self.main.cells(), self.second.cells());
        let state = state(&mut self.state);
        let numbers = self.numbers.lend();
        let progress = finish_read(&job.grammar, &job.record, main, second, state, numbers);
        assert!(self.kept() == before, "{job:?} {progress:?}");
        self.assert_guarded(job);
        (progress, result(&self.numbers, progress.answer))
    }

    /// The end of a read as XML.
    pub fn convert(&mut self, job: &Job) -> (Progress, Vec<u8>) {
        let before = self.kept();
        self.xml.renew(XML, self.seed);
        let (main, second) = (self.main.cells(), self.second.cells());
        let state = state(&mut self.state);
        let xml = self.xml.lend();
        let progress = finish_convert(&job.grammar, &job.record, main, second, state, xml);
        assert!(self.kept() == before, "{job:?} {progress:?}");
        self.assert_guarded(job);
        (progress, result(&self.xml, progress.answer))
    }

    /// Main table and state.
    pub fn kept(&self) -> (Vec<u32>, Vec<u32>) {
        (self.main.cells().to_vec(), self.state.cells().to_vec())
    }

    pub fn is_finished(&self) -> bool {
        self.state.cells()[2] == 1
    }

    fn assert_guarded(&self, job: &Job) {
        assert!(!self.main.guards_touched(), "{job:?}");
        assert!(!self.state.guards_touched(), "{job:?}");
        assert!(!self.second.touched_behind(0), "{job:?}");
    }
}

fn state(lent: &mut Lent<u32>) -> &mut State {
    lent.lend().try_into().expect("a state")
}

/// The result; all other cells must be as they were.
fn result<T: Cell>(buffer: &Lent<T>, answer: Answer) -> Vec<T> {
    let filled = if answer.number == 0 { answer.length } else { 0 };
    assert!(!buffer.touched_behind(filled), "{answer:?}");
    buffer.cells()[..filled].to_vec()
}

/// The job of the yardstick's calls, with what the memory lends.
pub fn lent<'a>(job: &'a Job, memory: &Memory) -> cut::Lent<'a> {
    cut::Lent {
        grammar: &job.grammar,
        record: &job.record,
        main_table: memory.main.cells().len(),
        grammar_table: memory.second.cells().len(),
    }
}

/// An answer of the yardstick as one of the library.
pub fn progress(of: cut::Progress) -> Progress {
    of.into()
}

/// The refusals of these calls, with a count of rounds.
pub fn refused(number: u32, rounds: usize) -> Progress {
    Progress {
        answer: super::refused(number),
        rounds,
    }
}

/// What the uncut calls answer.
pub fn uncut(job: &Job, memory: &Memory) -> ((Answer, Vec<u32>), (Answer, Vec<u8>)) {
    let (main, second) = (memory.main.cells().len(), memory.second.cells().len());
    let mut numbers = vec![0; READING_NUMBERS];
    let mut xml = vec![0; XML];
    let (grammar, record) = (&job.grammar, &job.record);
    let read = ixml_yardstick::read(grammar, record, main, second, &mut numbers);
    let converted = ixml_yardstick::convert(grammar, record, main, second, &mut xml);
    numbers.truncate(read.length);
    xml.truncate(converted.length);
    ((yardstick(read), numbers), (yardstick(converted), xml))
}

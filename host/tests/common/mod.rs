//! What the tests share: jobs, memory to lend, and the yardstick's answers.
#![allow(dead_code)]

pub mod cut;
pub mod grammars;
pub mod jobs;
#[path = "../../src/bin/calls/lent.rs"]
pub mod lent;
pub mod vectors;
pub mod xml;

use std::time::Duration;
use std::{fmt, thread};

use ixml::limits::{main_table, GRAMMAR_TABLE, RECORD_CHARACTERS};
use ixml::Answer;
use ixml_yardstick::gen::Random;
use ixml_yardstick::{gen, statics, syntax};
use lent::Lent;

/// The stack that every call must do with.
pub const STACK: usize = 1 << 20;

/// Runs a test on a thread with a stack of 1 MB.
pub fn on_small_stack<T: Send + 'static>(test: impl FnOnce() -> T + Send + 'static) -> T {
    let thread = thread::Builder::new().stack_size(STACK).spawn(test);
    match thread.expect("a thread").join() {
        Ok(value) => value,
        Err(panic) => std::panic::resume_unwind(panic),
    }
}

/// The processor's time that this thread has used. Unlike the clock's it does
/// not depend much on what else the computer does.
pub fn processor_time() -> Duration {
    #[repr(C)]
    struct Timespec {
        seconds: i64,
        nanoseconds: i64,
    }
    const CLOCK_THREAD_CPUTIME_ID: i32 = 3;
    extern "C" {
        fn clock_gettime(clock: i32, time: *mut Timespec) -> i32;
    }
    let mut time = Timespec {
        seconds: 0,
        nanoseconds: 0,
    };
    // SAFETY: the layout is that of x86-64 Linux, for which the library is.
    let status = unsafe { clock_gettime(CLOCK_THREAD_CPUTIME_ID, &mut time) };
    assert_eq!(status, 0);
    Duration::new(time.seconds as u64, time.nanoseconds as u32)
}

/// An answer of the yardstick as one of the library.
pub fn yardstick(answer: ixml_yardstick::Answer) -> Answer {
    answer.into()
}

pub fn refused(number: u32) -> Answer {
    Answer {
        number,
        ..Answer::default()
    }
}

/// The size of a grammar that is accepted.
pub fn size(grammar: &[u8]) -> Option<usize> {
    if ixml_yardstick::check(grammar).number != 0 {
        return None;
    }
    let grammar = grammar.strip_prefix(b"\xEF\xBB\xBF").unwrap_or(grammar);
    let syntax = syntax::read(std::str::from_utf8(grammar).ok()?).ok()?;
    Some(statics::size(&syntax))
}

/// Lengths of what is lent to a call.
#[derive(Clone, Copy, Debug)]
pub struct Room {
    pub main_table: usize,
    pub grammar_table: usize,
    pub result: usize,
}

#[derive(Clone)]
pub struct Job {
    pub grammar: Vec<u8>,
    pub record: Vec<u8>,
}

impl fmt::Debug for Job {
    fn fmt(&self, formatter: &mut fmt::Formatter<'_>) -> fmt::Result {
        let (grammar, record) = (self.grammar.escape_ascii(), self.record.escape_ascii());
        write!(formatter, "grammar {grammar} record {record}")
    }
}

impl Job {
    pub fn new(grammar: impl AsRef<[u8]>, record: impl AsRef<[u8]>) -> Job {
        Job {
            grammar: grammar.as_ref().to_vec(),
            record: record.as_ref().to_vec(),
        }
    }

    /// A made-up job of any style, mostly with a short record and now and then
    /// with a damaged one.
    pub fn made_up(random: &mut Random) -> Job {
        let job = gen::any_job(random);
        let mut job = Job::new(job.grammar, job.record);
        if random.chance(2) {
            grammars::spoil(random, &mut job.grammar);
        }
        if random.chance(2) {
            job.damage_record(random);
        }
        job
    }

    fn damage_record(&mut self, random: &mut Random) {
        let record = &mut self.record;
        let at = random.below(record.len() + 1);
        match random.below(4) {
            0 => record.insert(at, random.number() as u8),
            1 => record.truncate(at),
            2 => record.extend("\u{180}".bytes()),
            _ => {
                let missing = (RECORD_CHARACTERS + 1).saturating_sub(record.len());
                let fewer = random.below(3);
                record.extend(std::iter::repeat_n(b'x', missing.saturating_sub(fewer)));
            }
        }
    }

    /// The length of the main table that the job needs, if it gets that far.
    pub fn main_table(&self) -> Option<usize> {
        let record = std::str::from_utf8(&self.record).ok()?;
        let characters = record.chars().count();
        let known = record.chars().all(|character| character <= '\u{FF}');
        (known && characters <= RECORD_CHARACTERS).then_some(())?;
        Some(main_table(size(&self.grammar)?, characters))
    }
}

/// A call with tables and a result: reading or converting.
pub trait Call {
    type Cell: lent::Cell + fmt::Debug;

    fn library(
        job: &Job,
        main_table: &mut [u32],
        grammar_table: &mut [u32],
        result: &mut [Self::Cell],
    ) -> Answer;

    fn yardstick(job: &Job, room: Room, result: &mut [Self::Cell]) -> Answer;
}

pub struct Reading;

impl Call for Reading {
    type Cell = u32;

    fn library(
        job: &Job,
        main_table: &mut [u32],
        grammar_table: &mut [u32],
        result: &mut [u32],
    ) -> Answer {
        ixml::read(&job.grammar, &job.record, main_table, grammar_table, result)
    }

    fn yardstick(job: &Job, room: Room, result: &mut [u32]) -> Answer {
        let (main, table) = (room.main_table, room.grammar_table);
        let answer = ixml_yardstick::read(&job.grammar, &job.record, main, table, result);
        yardstick(answer)
    }
}

pub struct Converting;

impl Call for Converting {
    type Cell = u8;

    fn library(
        job: &Job,
        main_table: &mut [u32],
        grammar_table: &mut [u32],
        result: &mut [u8],
    ) -> Answer {
        ixml::convert(&job.grammar, &job.record, main_table, grammar_table, result)
    }

    fn yardstick(job: &Job, room: Room, result: &mut [u8]) -> Answer {
        let (main, table) = (room.main_table, room.grammar_table);
        let answer = ixml_yardstick::convert(&job.grammar, &job.record, main, table, result);
        yardstick(answer)
    }
}

/// Memory for calls, used again and again and filled anew for each.
pub struct Lender<C: Call> {
    /// Cells for a result, if nothing else is said.
    room: usize,
    main_table: Lent<u32>,
    grammar_table: Lent<u32>,
    result: Lent<C::Cell>,
    expected: Lent<C::Cell>,
}

impl<C: Call> Lender<C> {
    pub fn new(room: usize) -> Lender<C> {
        Lender {
            room,
            main_table: Lent::new(0, 0),
            grammar_table: Lent::new(0, 0),
            result: Lent::new(0, 0),
            expected: Lent::new(0, 0),
        }
    }

    /// Runs the library's call and sees that it leaves all memory but tables
    /// and result alone. What is lent holds a pattern made from the seed.
    pub fn run(&mut self, job: &Job, room: Room, seed: u32) -> (Answer, &[C::Cell]) {
        self.main_table.renew(room.main_table, seed);
        self.grammar_table.renew(room.grammar_table, !seed);
        self.run_in_tables(job, room, seed)
    }

    /// The same in tables that hold what the job before left.
    fn run_in_used_tables(&mut self, job: &Job, room: Room, seed: u32) -> (Answer, &[C::Cell]) {
        self.main_table.reuse(room.main_table);
        self.grammar_table.reuse(room.grammar_table);
        self.run_in_tables(job, room, seed)
    }

    fn run_in_tables(&mut self, job: &Job, room: Room, seed: u32) -> (Answer, &[C::Cell]) {
        self.result.renew(room.result, seed);
        let answer = C::library(
            job,
            self.main_table.lend(),
            self.grammar_table.lend(),
            self.result.lend(),
        );
        assert!(!self.main_table.guards_touched(), "{job:?} {room:?}");
        assert!(!self.grammar_table.guards_touched(), "{job:?} {room:?}");
        assert!(answer.length <= room.result, "{job:?} {room:?} {answer:?}");
        let filled = if answer.number == 0 { answer.length } else { 0 };
        assert!(!self.result.touched_behind(filled), "{job:?} {room:?}");
        (answer, &self.result.cells()[..filled])
    }

    /// Runs a job as the yardstick does, in tables that are just long enough
    /// and hold what the job before left.
    pub fn agree(&mut self, job: &Job, seed: u32) -> (Answer, Vec<C::Cell>) {
        let room = self.ample(job);
        self.expected.renew(room.result, seed);
        let expected = C::yardstick(job, room, self.expected.lend());
        let cells = self.expected.cells()[..expected.length].to_vec();
        let (answer, result) = self.run_in_used_tables(job, room, seed);
        assert_eq!(answer, expected, "{job:?}");
        assert_eq!(result, cells, "{job:?}");
        (answer, cells)
    }

    /// Runs a job as the yardstick does, then once more with other things in
    /// the memory that is lent, and with each part of it too short by one.
    pub fn compare(&mut self, job: &Job, seed: u32) -> (Answer, Vec<C::Cell>) {
        let (expected, cells) = self.agree(job, seed);
        let ample = self.ample(job);
        if expected.number == 0 {
            let exact = Room {
                result: cells.len(),
                ..ample
            };
            let (answer, result) = self.run(job, exact, !seed);
            assert_eq!(answer, expected, "{job:?}");
            assert_eq!(result, cells, "{job:?}");
            let short = Room {
                result: cells.len() - 1,
                ..ample
            };
            let (answer, _) = self.run(job, short, seed);
            assert_eq!(answer, refused(23), "{job:?}");
        } else {
            let (answer, _) = self.run(job, ample, !seed);
            assert_eq!(answer, expected, "{job:?}");
        }
        if job.main_table().is_some() {
            let shorter = [
                Room {
                    main_table: ample.main_table - 1,
                    ..ample
                },
                Room {
                    grammar_table: GRAMMAR_TABLE - 1,
                    ..ample
                },
            ];
            for room in shorter {
                let (answer, _) = self.run(job, room, seed);
                assert_eq!(answer, refused(15), "{job:?} {room:?}");
            }
        }
        (expected, cells)
    }

    fn ample(&self, job: &Job) -> Room {
        Room {
            main_table: job.main_table().unwrap_or(7),
            grammar_table: GRAMMAR_TABLE,
            result: self.room,
        }
    }
}

/// Counts of answers.
#[derive(Clone, Debug, Default)]
pub struct Tally {
    numbers: std::collections::BTreeMap<u32, usize>,
    ambiguous: usize,
    version: usize,
}

impl Tally {
    pub fn add(&mut self, answer: Answer) {
        *self.numbers.entry(answer.number).or_default() += 1;
        self.ambiguous += usize::from(answer.ambiguous);
        self.version += usize::from(answer.version);
    }

    /// Sees that each of these numbers, the ambiguous mark and the version
    /// mark came up often enough for the test to mean something.
    pub fn assert_each(&self, numbers: impl IntoIterator<Item = u32>, least: usize) {
        println!("{self:?}");
        for number in numbers {
            let count = self.numbers.get(&number).copied().unwrap_or(0);
            assert!(count >= least, "only {count} answers of {number}");
        }
        assert!(self.version >= least);
    }

    pub fn assert_ambiguous(&self, least: usize) {
        assert!(self.ambiguous >= least, "{self:?}");
    }
}

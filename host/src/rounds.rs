//! A record read in rounds, which the caller counts out.
//!
//! [`Rounds`] is the short way: an iterator of rounds that provides all memory.
//! [`start`], [`round`], [`finish_read`] and [`finish_convert`] are the library's
//! calls themselves. Between them, main table and state are the caller's.
//!
//! What is proved of a read in rounds holds where each call after the start is lent
//! the table and the state just as that read's last call left them. Whatever else
//! is lent, each call ends with an answer, and an end never gives another result
//! than the uncut call.

use ixml_yardstick::cut;

use crate::ffi::lend;
use crate::limits::{self, main_table_for, GRAMMAR_TABLE, READING_NUMBERS};
use crate::reader::{converted, with_room};
use crate::{Answer, Converted, Error, Reading};

/// What a read keeps between its calls, grammar and record included.
pub type State = [u32; limits::STATE];

/// A cell of the main table that no derivation has.
pub const NONE: u32 = u32::MAX;

/// The number of a state that is 1 where the read is finished.
const FINISHED: usize = 2;

/// The answer of a call of a read in rounds.
#[repr(C)]
#[derive(Clone, Copy, Debug, Default, PartialEq, Eq)]
pub struct Progress {
    pub answer: Answer,
    /// How many rounds were done; 0 with a refused start, 27 and 15.
    pub rounds: usize,
}

impl From<cut::Progress> for Progress {
    /// The yardstick's answer as one of the library.
    fn from(progress: cut::Progress) -> Progress {
        Progress {
            answer: progress.answer.into(),
            rounds: progress.rounds,
        }
    }
}

/// Starts a read: the numbers 0 to 15, and 24.
///
/// A refused start leaves a state of zeros, and the main table as it was.
pub fn start(
    grammar: &[u8],
    record: &[u8],
    main_table: &mut [u32],
    grammar_table: &[u32],
    state: &mut State,
) -> Progress {
    lend!(ixml_start: of grammar, of record, into main_table, of grammar_table, with state)
}

/// Does one round: the numbers 0, 27 and 15.
///
/// After k rounds the main table says of each rule and stretch whether it has a
/// derivation of height at most k. A round after the last changes nothing.
pub fn round(
    grammar: &[u8],
    record: &[u8],
    main_table: &mut [u32],
    grammar_table: &[u32],
    state: &mut State,
) -> Progress {
    lend!(ixml_round: of grammar, of record, into main_table, of grammar_table, with state)
}

/// Ends a read as [`read`](crate::read) would: 27, 15 and 26, and then what that
/// answers. Neither table nor state is written.
pub fn finish_read(
    grammar: &[u8],
    record: &[u8],
    main_table: &[u32],
    grammar_table: &[u32],
    state: &State,
    result: &mut [u32],
) -> Progress {
    lend!(ixml_finish_read: of grammar, of record, of main_table, of grammar_table, with state, into result)
}

/// Ends a read as [`convert`](crate::convert) would: 27, 15 and 26, and then what
/// that answers. Neither table nor state is written.
pub fn finish_convert(
    grammar: &[u8],
    record: &[u8],
    main_table: &[u32],
    grammar_table: &[u32],
    state: &State,
    result: &mut [u8],
) -> Progress {
    lend!(ixml_finish_convert: of grammar, of record, of main_table, of grammar_table, with state, into result)
}

/// A read in rounds in memory of its own: an iterator that does one round at each
/// step and ends when the read is finished.
///
/// To cancel a read, stop asking for rounds; to be rid of its memory, drop it. Any
/// number of reads may go on at once.
///
/// ```
/// use ixml::Rounds;
///
/// let mut rounds = Rounds::start("a: 'x'*.", "xx")?;
/// for round in rounds.by_ref() {
///     println!("round {} of at most {}: {} more", round.number, round.most, round.added);
/// }
/// assert_eq!(rounds.done(), 5);
/// assert_eq!(rounds.read()?.numbers, [0, 0, 0, 1]);
/// assert_eq!(rounds.convert()?.xml, "<a>xx</a>");
/// # Ok::<(), ixml::Error>(())
/// ```
///
/// Which cells of the main table are rules' is told by ordinary code, of which
/// nothing is proved; the rounds and what they come to are the library's.
#[derive(Clone, Debug)]
pub struct Rounds {
    grammar: Vec<u8>,
    record: Vec<u8>,
    main_table: Vec<u32>,
    grammar_table: Vec<u32>,
    state: Box<State>,
    /// For each rule its position in the main table.
    names: Vec<usize>,
    characters: usize,
    done: usize,
    entered: usize,
}

/// A round that was done.
#[derive(Clone, Copy, Debug, PartialEq, Eq)]
pub struct Round {
    /// From 1 on.
    pub number: usize,
    /// There is none after this.
    pub most: usize,
    /// How many pairs of a rule and a stretch of the record have a derivation of
    /// this height, and none of a lower one.
    pub added: usize,
    /// How many have one of this height or a lower one.
    pub entered: usize,
}

impl Rounds {
    /// Starts a read. The error is one of 1 to 14, or 24.
    ///
    /// ```
    /// use ixml::{Error, Rounds};
    ///
    /// assert_eq!(Rounds::start("a: b.", "").unwrap_err(), Error::UndefinedName { place: 3 });
    /// ```
    ///
    /// # Panics
    ///
    /// If the code that numbers the rules refuses a grammar that the library accepts.
    pub fn start(grammar: impl AsRef<[u8]>, record: impl AsRef<[u8]>) -> Result<Rounds, Error> {
        let (grammar, record) = (grammar.as_ref().to_vec(), record.as_ref().to_vec());
        let mut main_table = vec![0; main_table_for(&record)];
        let grammar_table = vec![0; GRAMMAR_TABLE];
        let mut state = Box::new([0; limits::STATE]);
        let started = start(
            &grammar,
            &record,
            &mut main_table,
            &grammar_table,
            &mut state,
        );
        let refusal = started.answer.ok().err();
        if let Some(error) = refusal {
            return Err(error.quoting(&grammar, &record));
        }
        let names = cut::names(&grammar).expect("a grammar that is accepted");
        let characters = limits::characters(&record);
        Ok(Rounds {
            grammar,
            record,
            main_table,
            grammar_table,
            state,
            names,
            characters,
            done: 0,
            entered: 0,
        })
    }

    /// How many rounds were done.
    pub fn done(&self) -> usize {
        self.done
    }

    /// How many there are at most: the rules of the grammar, written and made from
    /// repetitions and brackets, times the places of the record.
    pub fn most(&self) -> usize {
        self.names.len() * (self.characters + 1)
    }

    /// How many rules there are, written and made.
    pub fn rules(&self) -> usize {
        self.names.len()
    }

    pub fn is_finished(&self) -> bool {
        self.state[FINISHED] == 1
    }

    /// How many pairs of a rule and a stretch of the record have a derivation of a
    /// height that is at most the count of rounds, as the main table says.
    pub fn entered(&self) -> usize {
        let stretches = (self.characters + 1) * (self.characters + 2) / 2;
        let rows = self.names.iter().map(|name| {
            let row = &self.main_table[name * stretches..][..stretches];
            row.iter().filter(|&&cell| cell != NONE).count()
        });
        rows.sum()
    }

    /// The chosen reading. The error is 26 while the read is not finished, and
    /// otherwise that of [`Reader::read`](crate::Reader::read).
    ///
    /// ```
    /// use ixml::{Error, Rounds};
    ///
    /// let mut rounds = Rounds::start("a: b. b: 'x'.", "x")?;
    /// rounds.next();
    /// assert_eq!(rounds.read(), Err(Error::NotYet));
    /// # Ok::<(), Error>(())
    /// ```
    pub fn read(&self) -> Result<Reading, Error> {
        let mut numbers = vec![0; READING_NUMBERS];
        let ended = finish_read(
            &self.grammar,
            &self.record,
            &self.main_table,
            &self.grammar_table,
            &self.state,
            &mut numbers,
        );
        let answer = ended.answer.ok()?;
        numbers.truncate(answer.length);
        Ok(Reading {
            numbers,
            ambiguous: answer.ambiguous,
            version_mismatch: answer.version,
        })
    }

    /// The record as XML. The error is 26 while the read is not finished, and
    /// otherwise that of [`Reader::convert`](crate::Reader::convert).
    pub fn convert(&self) -> Result<Converted, Error> {
        let mut xml = Vec::new();
        let answer = with_room(&mut xml, |xml| {
            let ended = finish_convert(
                &self.grammar,
                &self.record,
                &self.main_table,
                &self.grammar_table,
                &self.state,
                xml,
            );
            ended.answer
        })?;
        Ok(converted(&xml, answer))
    }
}

impl Iterator for Rounds {
    type Item = Round;

    /// Does one round; `None` if the read is finished.
    fn next(&mut self) -> Option<Round> {
        if self.is_finished() {
            return None;
        }
        let progress = round(
            &self.grammar,
            &self.record,
            &mut self.main_table,
            &self.grammar_table,
            &mut self.state,
        );
        assert_eq!(progress.answer.number, 0, "table and state are this read's");
        let entered = self.entered();
        let added = entered - self.entered;
        self.entered = entered;
        self.done = progress.rounds;
        Some(Round {
            number: self.done,
            most: self.most(),
            added,
            entered,
        })
    }
}

impl std::iter::FusedIterator for Rounds {}

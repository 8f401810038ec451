//! The calls of a read that is cut into rounds.

use crate::calls::{self, Answer, Tables};
use crate::engine::dots::Dots;
use crate::engine::rounds::Rounds;
use crate::refusal::Refusal;

/// The answer of these calls.
#[derive(Clone, Copy, Debug, Default, PartialEq, Eq)]
pub struct Progress {
    pub answer: Answer,
    /// How many rounds were done; 0 with a refused start, 27 or 15.
    pub rounds: usize,
}

impl From<Refusal> for Progress {
    fn from(refusal: Refusal) -> Progress {
        Progress {
            answer: refusal.into(),
            rounds: 0,
        }
    }
}

/// The job of a call: its texts, and the lengths of the tables lent.
#[derive(Clone, Copy, Debug)]
pub struct Lent<'a> {
    pub grammar: &'a [u8],
    pub record: &'a [u8],
    pub main_table: usize,
    pub grammar_table: usize,
}

impl Lent<'_> {
    fn tables(&self) -> Tables {
        Tables {
            main: self.main_table,
            grammar: self.grammar_table,
        }
    }
}

/// What a read keeps between its calls; by default that of no read.
#[derive(Clone, Debug, Default)]
pub struct State(Option<Begun>);

#[derive(Clone, Debug)]
struct Begun {
    grammar: Vec<u8>,
    record: Vec<u8>,
    size: usize,
    characters: usize,
    version: bool,
    /// For each rule its position in the main table.
    names: Vec<usize>,
    rounds: Rounds,
}

/// Starts a read: 0 to 15, and 24.
pub fn start(lent: Lent) -> (Progress, State) {
    match begin(lent) {
        Ok(begun) => (begun.progress(), State(Some(begun))),
        Err(refusal) => (refusal.into(), State(None)),
    }
}

fn begin(lent: Lent) -> Result<Begun, Refusal> {
    let (plain, record, version) = calls::opened(lent.grammar, lent.record)?;
    let begun = Begun {
        grammar: lent.grammar.to_vec(),
        record: lent.record.to_vec(),
        size: plain.size(),
        characters: record.len(),
        version,
        names: plain.names(),
        rounds: Rounds::new(Dots::new(&plain, &record), record.len()),
    };
    begun.lend(lent).map(|()| begun)
}

impl Begun {
    /// 15.
    fn lend(&self, lent: Lent) -> Result<(), Refusal> {
        match lent.tables().suffice(self.size, self.characters) {
            true => Ok(()),
            false => Err(Refusal::TableTooShort),
        }
    }

    fn progress(&self) -> Progress {
        Progress {
            answer: Answer {
                version: self.version,
                ..Answer::default()
            },
            rounds: self.rounds.done(),
        }
    }
}

impl State {
    /// 27, then 15.
    fn of(&self, lent: Lent) -> Result<&Begun, Refusal> {
        let begun = self.0.as_ref().ok_or(Refusal::OtherState)?;
        if begun.grammar != lent.grammar || begun.record != lent.record {
            return Err(Refusal::OtherState);
        }
        begun.lend(lent).map(|()| begun)
    }

    /// One round: 0, 27 and 15.
    pub fn round(&mut self, lent: Lent) -> Progress {
        if let Err(refusal) = self.of(lent) {
            return refusal.into();
        }
        let begun = self.0.as_mut().expect("the state of a read");
        begun.rounds.step();
        begun.progress()
    }

    /// What reading answers: 27, 15 and 26 before it.
    pub fn finish_read(&self, lent: Lent, result: &mut [u32]) -> Progress {
        self.finish(lent, |grammar, record, main, second| {
            calls::read(grammar, record, main, second, result)
        })
    }

    /// What converting answers: 27, 15 and 26 before it.
    pub fn finish_convert(&self, lent: Lent, result: &mut [u8]) -> Progress {
        self.finish(lent, |grammar, record, main, second| {
            calls::convert(grammar, record, main, second, result)
        })
    }

    fn finish(
        &self,
        lent: Lent,
        uncut: impl FnOnce(&[u8], &[u8], usize, usize) -> Answer,
    ) -> Progress {
        let begun = match self.of(lent) {
            Ok(begun) => begun,
            Err(refusal) => return refusal.into(),
        };
        let rounds = begun.rounds.done();
        if !begun.rounds.is_finished() {
            let answer = Refusal::NotYet.into();
            return Progress { answer, rounds };
        }
        let answer = uncut(
            lent.grammar,
            lent.record,
            lent.main_table,
            lent.grammar_table,
        );
        let derives = begun.rounds.derives(0, 0, begun.characters);
        assert_eq!(
            derives,
            answer.number != 16,
            "the rounds and the uncut read"
        );
        Progress { answer, rounds }
    }

    /// The rounds of a read that was started.
    pub fn rounds(&self) -> Option<&Rounds> {
        self.0.as_ref().map(|begun| &begun.rounds)
    }

    /// For each rule of [`State::rounds`] its position in the main table.
    pub fn names(&self) -> &[usize] {
        self.0.as_ref().map_or(&[], |begun| &begun.names)
    }
}

/// For each rule of an accepted grammar, written or made, its position in the main
/// table.
pub fn names(grammar: &[u8]) -> Option<Vec<usize>> {
    let (plain, ..) = calls::opened(grammar, b"").ok()?;
    Some(plain.names())
}

/// The rules of a grammar, the rounds until a read is finished, and for each k
/// from 0 on how many pairs of a rule and a span have a derivation of height at
/// most k; the refusal where the start is refused.
pub fn rounds(grammar: &[u8], record: &[u8]) -> Result<(usize, usize, Vec<usize>), Answer> {
    let (progress, state) = start(Lent {
        grammar,
        record,
        main_table: usize::MAX,
        grammar_table: usize::MAX,
    });
    let mut rounds = state.rounds().cloned().ok_or(progress.answer)?;
    let mut counts = vec![rounds.count()];
    while !rounds.is_finished() {
        rounds.step();
        counts.push(rounds.count());
    }
    Ok((rounds.rules(), rounds.done(), counts))
}

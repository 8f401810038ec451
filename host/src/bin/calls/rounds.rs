//! Lines for reading in rounds.

use ixml::rounds::{finish_read, round, start, State};
use ixml::{limits, Rounds};

use crate::lent::Lent;
use crate::{decimal, filled, output, Job, SEED};

/// The answer to a job that is started, given so many rounds and ended as numbers;
/// that of the start, if it is refused.
pub fn cut(job: &Job, asked: usize) -> String {
    let mut main_table = Lent::new(job.main_table, SEED);
    let mut grammar_table = Lent::new(job.grammar_table, SEED);
    let mut state = Lent::new(limits::STATE, SEED);
    let mut result = Lent::new(job.result, SEED);
    let (grammar, record) = (&job.grammar, &job.record);
    let (main, second) = (main_table.lend(), grammar_table.lend());
    let kept: &mut State = state.lend().try_into().expect("a state");
    let mut progress = start(grammar, record, main, second, kept);
    let mut touched = progress.rounds != 0;
    if progress.answer.number == 0 {
        for _ in 0..asked {
            progress = round(grammar, record, main, second, kept);
            touched |= progress.answer.number != 0;
        }
        progress = finish_read(grammar, record, main, second, kept, result.lend());
    }
    let filled = filled(progress.answer, job.result);
    touched |= main_table.guards_touched() || state.guards_touched();
    touched |= grammar_table.touched_behind(0) || result.touched_behind(filled);
    let numbers = decimal(&result.cells()[..filled]);
    output(progress.answer, &numbers, &[progress.rounds], touched)
}

/// How many rules a grammar has, the rounds until a read is finished, and what the
/// main table says after each: how many pairs of a rule and a stretch are entered.
pub fn rounds(grammar: &[u8], record: &[u8]) -> Result<String, String> {
    let mut rounds = Rounds::start(grammar, record).map_err(|error| error.to_string())?;
    let mut counts = vec![rounds.entered().to_string()];
    counts.extend(rounds.by_ref().map(|round| round.entered.to_string()));
    let counts = counts.join(",");
    Ok(format!("{}\t{}\t{counts}", rounds.rules(), rounds.done()))
}

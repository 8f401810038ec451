//! Reading against the yardstick.

mod common;

use common::{on_small_stack, vectors, Call, Job, Lender, Reading, Room, Tally};
use ixml::limits::READING_NUMBERS;
use ixml::Answer;
use ixml_yardstick::gen::Random;

const JOBS: usize = 50_000;

#[test]
fn made_up_jobs_agree_with_the_yardstick() {
    on_small_stack(|| {
        let mut random = Random::new(4);
        let mut lender: Lender<Reading> = Lender::new(READING_NUMBERS);
        let mut tally = Tally::default();
        for _ in 0..JOBS {
            let job = Job::made_up(&mut random);
            let (answer, _) = lender.compare(&job, random.number() as u32);
            tally.add(answer);
        }
        tally.assert_each([0, 4, 5, 12, 13, 14, 16], 50);
        tally.assert_ambiguous(JOBS / 20);
    });
}

/// Jobs for the plain engine, and the longest record: it takes over a second
/// for a long one.
const PLAIN_JOBS: usize = 5_000;
const PLAIN_CHARACTERS: usize = 12;

/// Reading by the plain engine, held to the quick one.
struct Plain;

impl Call for Plain {
    type Cell = u32;

    fn library(
        job: &Job,
        main_table: &mut [u32],
        grammar_table: &mut [u32],
        result: &mut [u32],
    ) -> Answer {
        ixml::read_plain(&job.grammar, &job.record, main_table, grammar_table, result)
    }

    fn yardstick(job: &Job, room: Room, result: &mut [u32]) -> Answer {
        let mut main_table = vec![0; room.main_table];
        let mut grammar_table = vec![0; room.grammar_table];
        let (main, grammar) = (&mut main_table, &mut grammar_table);
        ixml::read(&job.grammar, &job.record, main, grammar, result)
    }
}

#[test]
fn both_engines_read_the_same() {
    on_small_stack(|| {
        let mut random = Random::new(11);
        let vectors = vectors::of("read").into_iter().map(|vector| vector.job);
        let made_up = std::iter::repeat_with(|| Job::made_up(&mut random));
        let short = |job: &Job| job.record.len() <= PLAIN_CHARACTERS;
        let mut jobs: Vec<Job> = vectors.filter(short).collect();
        jobs.extend(made_up.filter(short).take(PLAIN_JOBS));
        let mut lender: Lender<Plain> = Lender::new(READING_NUMBERS);
        let mut tally = Tally::default();
        for job in jobs {
            let (answer, _) = lender.compare(&job, 11);
            tally.add(answer);
        }
        tally.assert_each([0, 16], 50);
        tally.assert_ambiguous(PLAIN_JOBS / 20);
    });
}

//! Reading in rounds: the main table after each of them, and what the end gives.

mod common;

use common::cut::{lent, progress, refused, uncut, Memory};
use common::{jobs, on_small_stack, vectors, Job, Tally};
use ixml::rounds::NONE;
use ixml::{Reader, Rounds};
use ixml_yardstick::cut;
use ixml_yardstick::gen::Random;

const JOBS: usize = 4_000;

/// The longest record of a made-up job whose whole table is looked at, in bytes.
const BYTES: usize = 9;

fn made_up(random: &mut Random) -> Job {
    loop {
        let job = Job::made_up(random);
        if job.record.len() <= BYTES {
            return job;
        }
    }
}

/// The main table alone, read the same way whatever k is: the cell of a rule holds
/// one less than its least height over the stretch, if that is at most k.
fn assert_says(memory: &Memory, like: &cut::State, before: &cut::State, job: &Job) {
    let Some(rounds) = like.rounds() else { return };
    let n = String::from_utf8_lossy(&job.record).chars().count();
    let k = rounds.done();
    let main = memory.main.cells();
    for (rule, &name) in like.names().iter().enumerate() {
        for j in 0..=n {
            for i in 0..=j {
                let cell = main[name * (n + 1) * (n + 2) / 2 + j * (j + 1) / 2 + i];
                let derives = rounds.derives(rule, i, j);
                assert_eq!(cell != NONE, derives, "{job:?} {rule} {i} {j} {k}");
                let older = before.rounds().is_some_and(|old| old.derives(rule, i, j));
                if derives && !older {
                    assert_eq!(cell as usize + 1, k, "{job:?} {rule} {i} {j}");
                }
            }
        }
    }
}

/// Every refusal of a call that is not the first leaves table and state alone
/// (`Memory` sees to it), and is judged in its order, finished or not.
fn assert_refusals(memory: &mut Memory, job: &Job, other: &Job) {
    let others = [
        other.clone(),
        Job::new(&job.grammar, &other.record),
        Job::new(&other.grammar, &job.record),
    ];
    let kept = memory.kept();
    for (main, second) in [(-1, 0), (0, -1)] {
        memory.resized(main, second);
        assert_all_refused(memory, job, 15);
        for other in &others {
            let same = other.grammar == job.grammar && other.record == job.record;
            assert_all_refused(memory, other, if same { 15 } else { 27 });
        }
        memory.resized(-main, -second);
    }
    // The guards are made anew where lengths change, and the last cell with them.
    memory.main.lend().copy_from_slice(&kept.0);
}

fn assert_all_refused(memory: &mut Memory, job: &Job, number: u32) {
    let expected = refused(number, 0);
    assert_eq!(memory.round(job), expected, "{job:?}");
    assert_eq!(memory.read(job).0, expected, "{job:?}");
    assert_eq!(memory.convert(job).0, expected, "{job:?}");
}

/// Runs a job to its end, held to the yardstick after each round.
fn run(job: &Job, other: &Job, seed: u32) -> ixml::Answer {
    let mut memory = Memory::of(job, seed);
    let (begun, mut like) = cut::start(lent(job, &memory));
    assert_eq!(memory.start(job), progress(begun), "{job:?}");
    if begun.answer.number != 0 {
        assert_eq!(memory.round(job), refused(27, 0), "{job:?}");
        assert_eq!(memory.read(job).0, refused(27, 0), "{job:?}");
        return progress(begun).answer;
    }
    let mut before = like.clone();
    assert_says(&memory, &like, &before, job);
    assert_refusals(&mut memory, job, other);
    while !memory.is_finished() {
        let rounds = like.rounds().map_or(0, |rounds| rounds.done());
        assert_eq!(memory.read(job).0, refused(26, rounds), "{job:?}");
        assert_eq!(memory.convert(job).0, refused(26, rounds), "{job:?}");
        let expected = progress(like.round(lent(job, &memory)));
        assert_eq!(memory.round(job), expected, "{job:?}");
        assert_says(&memory, &like, &before, job);
        before = like.clone();
    }
    let rounds = like.rounds().expect("a read");
    assert!(rounds.is_finished(), "{job:?}");
    let done = rounds.done();
    assert_refusals(&mut memory, job, other);
    assert_eq!(memory.round(job).rounds, done, "{job:?}");
    let (read, converted) = uncut(job, &memory);
    let (ended, numbers) = memory.read(job);
    assert_eq!((ended.answer, numbers), read, "{job:?}");
    assert_eq!(ended.rounds, done, "{job:?}");
    let (ended, xml) = memory.convert(job);
    assert_eq!((ended.answer, xml), converted, "{job:?}");
    assert_eq!(ended.rounds, done, "{job:?}");
    read.0
}

#[test]
fn made_up_jobs_agree_with_the_yardstick() {
    on_small_stack(|| {
        let mut random = Random::new(12);
        let mut tally = Tally::default();
        let mut other = Job::new("a: 'x'.", "x");
        for _ in 0..JOBS {
            let job = made_up(&mut random);
            tally.add(run(&job, &other, random.number() as u32));
            other = job;
        }
        tally.assert_each([0, 4, 5, 16], 20);
        tally.assert_ambiguous(JOBS / 20);
    });
}

/// The vectors of the tool, by this test's own checks.
#[test]
fn vectors_agree_with_the_yardstick() {
    on_small_stack(|| {
        let other = Job::new("a: 'x'.", "x");
        let mut lines = vectors::lines_of("rounds", 3);
        lines.extend(vectors::lines_of("cut", 7));
        for (given, _) in lines {
            let fields: Vec<&str> = given.split('\t').collect();
            let job = Job::new(vectors::bytes(fields[1]), vectors::bytes(fields[2]));
            run(&job, &other, 3);
        }
    });
}

/// At the bound the last round may add rules that no dot has seen.
#[test]
fn the_last_round_closes_the_dots() {
    for (grammar, rounds) in [("a: ; a.", 1), ("a: ; a, a.", 1), ("a: b. b: ; a.", 2)] {
        let mut read = Rounds::start(grammar, "").expect("a read");
        assert_eq!(read.by_ref().count(), rounds, "{grammar}");
        assert_eq!(read.most(), rounds, "{grammar}");
        let reading = read.read().expect("a reading");
        assert!(reading.ambiguous, "{grammar}");
        assert_eq!(Reader::new().read(grammar, ""), Ok(reading), "{grammar}");
    }
}

/// Two reads whose rounds take turns, each in tables of its own, and a third that
/// is given up.
#[test]
fn reads_that_take_turns() {
    on_small_stack(|| {
        let mut random = Random::new(13);
        let mut finished = 0;
        for _ in 0..1_000 {
            let jobs = [(); 2].map(|()| made_up(&mut random));
            let starts = jobs
                .clone()
                .map(|job| Rounds::start(job.grammar, job.record));
            let [Ok(mut one), Ok(mut two)] = starts else {
                continue;
            };
            let mut given_up = one.clone();
            while !one.is_finished() || !two.is_finished() {
                let next = if random.chance(50) {
                    &mut one
                } else {
                    &mut two
                };
                next.next();
                if random.chance(10) {
                    given_up.next();
                }
            }
            for (read, job) in [one, two].iter().zip(&jobs) {
                let (grammar, record) = (&job.grammar, &job.record);
                assert_eq!(read.read(), Reader::new().read(grammar, record), "{job:?}");
                assert_eq!(
                    read.convert(),
                    Reader::new().convert(grammar, record),
                    "{job:?}"
                );
                assert!(read.done() <= read.most(), "{job:?}");
                finished += 1;
            }
        }
        assert!(finished > 500, "{finished}");
    });
}

/// What an iterator of rounds says of its progress.
#[test]
fn progress_is_told() {
    let mut rounds = Rounds::start("a: ~[]*.", "x".repeat(200)).expect("a read");
    assert_eq!((rounds.rules(), rounds.most()), (2, 402));
    let mut entered = 0;
    let mut number = 0;
    for round in rounds.by_ref() {
        number += 1;
        assert_eq!((round.number, round.most), (number, 402));
        assert_eq!(round.entered, entered + round.added);
        assert_eq!(round.added == 0, number == 203);
        entered = round.entered;
    }
    assert_eq!(
        (number, rounds.done(), rounds.entered()),
        (203, 203, entered)
    );
    assert_eq!(entered, 2 * 201 * 202 / 2);
    assert_eq!(rounds.next(), None);
    assert_eq!(rounds.convert().expect("XML").xml.len(), 207);
}

/// The stack of every call is enough for jobs at the limits.
#[test]
fn jobs_at_the_limits() {
    on_small_stack(|| {
        let mut all = jobs::awkward();
        all.extend(jobs::full_size());
        for job in all {
            let mut memory = Memory::of(&job, 5);
            let started = memory.start(&job).answer.number == 0;
            assert_eq!(memory.round(&job).rounds, usize::from(started), "{job:?}");
            if memory.is_finished() {
                continue;
            }
            let early = if started { 26 } else { 27 };
            assert_eq!(memory.read(&job).0.answer.number, early, "{job:?}");
            // A state that says that the read is finished, which it is not.
            memory.state.lend()[2] = 1;
            assert_eq!(memory.read(&job).0, refused(27, 0), "{job:?}");
            assert_eq!(memory.convert(&job).0, refused(27, 0), "{job:?}");
        }
    });
}

/// Whole reads at the limits: with a reading, with none, with one that is too long.
#[test]
fn reads_at_the_limits() {
    on_small_stack(|| {
        let x = "x".repeat(200);
        let long = [
            (Job::new("a: ~[]*.", &x), 203),
            (Job::new("a: 'x'*, 'y'.", &x), 202),
            (jobs::doublings("", 65), 66),
            (jobs::wide(), 4),
        ];
        for (job, rounds) in long {
            let mut memory = Memory::of(&job, 6);
            assert_eq!(memory.start(&job).answer.number, 0, "{job:?}");
            while !memory.is_finished() {
                memory.round(&job);
            }
            let (read, converted) = uncut(&job, &memory);
            let (ended, numbers) = memory.read(&job);
            assert_eq!((ended.answer, numbers), read, "{job:?}");
            assert_eq!(ended.rounds, rounds, "{job:?}");
            let (ended, xml) = memory.convert(&job);
            assert_eq!((ended.answer, xml), converted, "{job:?}");
        }
    });
}

//! Jobs at the limits, on a stack of 1 MB.

mod common;

use std::time::Duration;

use common::{jobs, on_small_stack, processor_time, Call, Converting, Job, Lender, Reading};

/// What a full-size grammar may take on 200 characters, the yardstick's turn
/// and slow computers allowed for. docs/BENCH.md has the times themselves.
const LONGEST: Duration = Duration::from_secs(10);

fn run_all<C: Call>(jobs: Vec<Job>) {
    on_small_stack(|| {
        let mut lender: Lender<C> = Lender::new(1 << 17);
        for job in jobs {
            lender.compare(&job, 0xA5A5_5A5A);
        }
    });
}

/// Runs each job once and measures it.
fn run_timed<C: Call>(jobs: Vec<Job>) {
    on_small_stack(|| {
        let mut lender: Lender<C> = Lender::new(1 << 17);
        for job in jobs {
            let start = processor_time();
            let (answer, _) = lender.agree(&job, 3);
            let time = processor_time() - start;
            assert_eq!(answer.number, 0, "{job:?}");
            assert!(time < LONGEST, "{time:?} for {job:?}");
        }
    });
}

#[test]
fn awkward_jobs_are_read() {
    run_all::<Reading>(jobs::awkward());
}

#[test]
fn awkward_jobs_are_converted() {
    run_all::<Converting>(jobs::awkward());
}

#[test]
fn full_size_grammars_are_read() {
    run_timed::<Reading>(jobs::full_size());
}

#[test]
fn full_size_grammars_are_converted() {
    run_timed::<Converting>(jobs::full_size());
}

/// The jobs are at the limits that their names say.
#[test]
fn jobs_are_what_they_are_meant_to_be() {
    let numbers = |job: &Job| {
        let mut result = vec![0; 4096];
        let table = job.main_table().expect("an accepted grammar");
        let answer = ixml_yardstick::read(&job.grammar, &job.record, table, 16_384, &mut result);
        (answer.number, answer.length)
    };
    for mark in ["", "-", "@"] {
        assert_eq!(numbers(&jobs::deep(mark, 4096)), (0, 4096));
        assert_eq!(numbers(&jobs::deep(mark, 4097)), (29, 0));
        assert_eq!(numbers(&jobs::doublings(mark, 11)), (0, 4095));
        assert_eq!(numbers(&jobs::doublings(mark, 65)), (29, 0));
    }
    assert_eq!(numbers(&jobs::wide()), (0, 4096));
    for job in jobs::full_size() {
        assert_eq!(common::size(&job.grammar), Some(512));
        assert_eq!(job.main_table(), Some(10_394_112));
    }
}

//! Made-up jobs through the proved library and through the yardstick.
//!
//!     ixml-fuzz [--seconds N | --jobs N] [--seed S] [--threads N]
//!
//! Every buffer lies against a page that may not be touched, has a random
//! length, and holds random numbers before a call. The whole answer and every cell
//! of the result must be the yardstick's, and every other cell as it was. The
//! first difference is printed, with the seed that shows it again, and ends the
//! run with status 1.

mod cut;
mod jobs;
mod pages;

use std::process::ExitCode;
use std::sync::atomic::{AtomicBool, AtomicU64, Ordering};
use std::thread;
use std::time::{Duration, Instant};

use ixml_yardstick::gen::Random;
use jobs::Bench;

const USAGE: &str = "usage: ixml-fuzz [--seconds N | --jobs N] [--seed S] [--threads N]";

struct Wanted {
    time: Option<Duration>,
    jobs: Option<u64>,
    seed: u64,
    threads: u64,
}

fn wanted(mut words: impl Iterator<Item = String>) -> Option<Wanted> {
    let cores = thread::available_parallelism().map_or(1, usize::from);
    let mut wanted = Wanted {
        time: None,
        jobs: None,
        seed: 1,
        threads: cores as u64,
    };
    while let Some(word) = words.next() {
        let number: u64 = words.next()?.parse().ok()?;
        match word.as_str() {
            "--seconds" => wanted.time = Some(Duration::from_secs(number)),
            "--jobs" => wanted.jobs = Some(number),
            "--seed" => wanted.seed = number,
            "--threads" if number > 0 => wanted.threads = number,
            _ => return None,
        }
    }
    if wanted.time.is_none() && wanted.jobs.is_none() {
        wanted.time = Some(Duration::from_secs(10));
    }
    Some(wanted)
}

fn main() -> ExitCode {
    let Some(wanted) = wanted(std::env::args().skip(1)) else {
        eprintln!("{USAGE}");
        return ExitCode::from(2);
    };
    let begun = Instant::now();
    let (next, calls, failed) = (AtomicU64::new(0), AtomicU64::new(0), AtomicBool::new(false));
    let work = || {
        let mut bench = Bench::new();
        while !failed.load(Ordering::Relaxed) {
            let number = next.fetch_add(1, Ordering::Relaxed);
            let late = wanted.time.is_some_and(|time| begun.elapsed() >= time);
            if late || wanted.jobs.is_some_and(|jobs| number >= jobs) {
                return;
            }
            // Each job has a seed of its own, so that it can be had again alone.
            let seed = wanted.seed.wrapping_add(number);
            match bench.job(&mut Random::new(seed)) {
                Ok(count) => {
                    calls.fetch_add(count, Ordering::Relaxed);
                }
                Err(difference) => {
                    if !failed.swap(true, Ordering::Relaxed) {
                        println!("{difference}\nagain: ixml-fuzz --jobs 1 --seed {seed}");
                    }
                    return;
                }
            }
        }
    };
    thread::scope(|scope| {
        for _ in 0..wanted.threads {
            scope.spawn(work);
        }
    });
    let (calls, seconds) = (calls.into_inner(), begun.elapsed().as_secs_f64());
    let rate = calls as f64 / seconds;
    println!("{calls} calls in {seconds:.1} s, {rate:.0} a second, from seed {}", wanted.seed);
    if failed.into_inner() {
        return ExitCode::from(1);
    }
    println!("no difference");
    ExitCode::SUCCESS
}

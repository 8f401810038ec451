//! Calls on several threads at once.

mod common;

use std::thread;

use common::{Converting, Job, Lender, Reading, Tally};
use ixml::limits::READING_NUMBERS;
use ixml_yardstick::gen::Random;

const THREADS: u64 = 4;
const JOBS: usize = 3_000;

/// Each thread runs jobs of its own, and each answer is the yardstick's, as it
/// is for a thread that runs alone.
#[test]
fn threads_do_not_disturb_each_other() {
    let run = |seed: u64| {
        let mut random = Random::new(seed);
        let mut reading: Lender<Reading> = Lender::new(READING_NUMBERS);
        let mut converting: Lender<Converting> = Lender::new(1 << 17);
        let mut tally = Tally::default();
        for _ in 0..JOBS {
            let job = Job::made_up(&mut random);
            let held = random.number() as u32;
            tally.add(reading.compare(&job, held).0);
            converting.compare(&job, held);
        }
        tally.assert_each([0, 16], 50);
    };
    let threads: Vec<_> = (0..THREADS)
        .map(|number| thread::spawn(move || run(40 + number)))
        .collect();
    for thread in threads {
        thread.join().expect("no thread fails");
    }
}

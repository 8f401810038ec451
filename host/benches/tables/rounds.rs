//! Reading in rounds: how long a round takes, and how many a read takes.

use std::time::Duration;

use ixml::limits::{GRAMMAR_TABLE, MAIN_TABLE, READING_NUMBERS, RECORD_CHARACTERS, STATE};
use ixml::rounds::{finish_read, round, start, State};
use ixml::Rounds;
use ixml_yardstick::gen::{self, Random};

use crate::common::{processor_time, Job};
use crate::{dense_rules, milliseconds};

/// A read is given up after so long.
const PATIENCE: Duration = Duration::from_secs(20);

/// Sizes from which a random dense grammar counts as one of full size.
const FULL: std::ops::RangeInclusive<usize> = 400..=512;

/// What a read in rounds took.
struct Cut {
    start: Duration,
    rounds: Vec<Duration>,
    /// The end as numbers, if the read was not given up.
    end: Option<Duration>,
}

impl Cut {
    fn longest(&self) -> Duration {
        self.rounds.iter().copied().max().unwrap_or_default()
    }

    fn mean(&self) -> Duration {
        self.rounds.iter().sum::<Duration>() / self.rounds.len().max(1) as u32
    }
}

fn timed<T>(call: impl FnOnce() -> T) -> (T, Duration) {
    let begin = processor_time();
    let value = call();
    (value, processor_time() - begin)
}

fn measure(job: &Job) -> Cut {
    let mut main = vec![0; MAIN_TABLE];
    let second = vec![0; GRAMMAR_TABLE];
    let mut state: Box<State> = Box::new([0; STATE]);
    let mut numbers = vec![0; READING_NUMBERS];
    let (grammar, record) = (&job.grammar, &job.record);
    // The memory is the system's until it is written.
    start(grammar, record, &mut main, &second, &mut state);
    let (begun, start) = timed(|| start(grammar, record, &mut main, &second, &mut state));
    assert_eq!(begun.answer.number, 0, "{job:?}");
    let mut rounds = Vec::new();
    while state[2] == 0 && rounds.iter().sum::<Duration>() < PATIENCE {
        rounds.push(timed(|| round(grammar, record, &mut main, &second, &mut state)).1);
    }
    let end = (state[2] == 1)
        .then(|| timed(|| finish_read(grammar, record, &main, &second, &state, &mut numbers)).1);
    Cut { start, rounds, end }
}

/// A random dense grammar of full size that is accepted.
fn dense(seed: u64) -> String {
    let random = &mut Random::new(seed);
    let dense = std::iter::repeat_with(|| dense_rules(random, 40));
    let full = |text: &String| {
        ixml::check(text.as_bytes()).number == 0
            && crate::size(text.as_bytes()).is_some_and(|size| FULL.contains(&size))
    };
    let mut full = dense.filter(full);
    full.next().expect("there are some")
}

/// The time of a round on grammars of full size.
fn times() {
    let families: [(&str, String); 7] = [
        ("fields", gen::fields(512)),
        ("pairs", gen::pairs(512)),
        ("copies", gen::copies(512)),
        ("stars", gen::stars(512)),
        ("runs", gen::runs(512)),
        ("chains", gen::chains(512)),
        ("dense, at random, size 400 to 512", dense(1)),
    ];
    println!(
        "| a read in rounds, size 512 | characters | start ms | rounds | first round ms \
         | longest round ms | mean ms | end ms |"
    );
    println!("|---|---:|---:|---:|---:|---:|---:|---:|");
    for (name, grammar) in &families {
        for characters in [20, 80, RECORD_CHARACTERS] {
            let record = match *name {
                "fields" => gen::fields_record(characters),
                _ => gen::letters(characters),
            };
            let cut = measure(&Job::new(grammar, record));
            let more = if cut.end.is_some() { "" } else { ", given up" };
            println!(
                "| {name} | {characters} | {} | {}{more} | {} | {} | {} | {} |",
                milliseconds(cut.start),
                cut.rounds.len(),
                milliseconds(cut.rounds[0]),
                milliseconds(cut.longest()),
                milliseconds(cut.mean()),
                cut.end.map_or("-".to_string(), milliseconds),
            );
        }
    }
}

/// A file of the repository.
fn file(path: &str) -> Vec<u8> {
    let path = format!("{}/../{path}", env!("CARGO_MANIFEST_DIR"));
    std::fs::read(&path).expect(&path)
}

/// How many rounds real grammars take.
fn counts() {
    let demo = |grammar: &str, record: &str| {
        let grammar = file(&format!("demo/{grammar}.ixml"));
        Job::new(grammar, file(&format!("demo/{record}.txt")))
    };
    let ixml = file("tests/grammars/ixml.ixml");
    let own = "p: @lat, -' ', @lon. lat: d+. lon: d+. -d: ['0'-'9'].\n";
    let rows = [
        ("demo/position.ixml", demo("position", "position")),
        ("demo/url.ixml", demo("url", "url")),
        ("demo/insertion.ixml", demo("insertion", "insertion")),
        ("demo/logger.ixml", demo("logger", "logger")),
        ("demo/field-line.ixml", demo("field-line", "field-line")),
        ("the grammar of ixml, on a grammar", Job::new(ixml, own)),
        (
            "`a: ~[]*.`",
            Job::new("a: ~[]*.", "x".repeat(RECORD_CHARACTERS)),
        ),
        (
            "fields of size 512",
            Job::new(gen::fields(512), gen::fields_record(RECORD_CHARACTERS)),
        ),
    ];
    println!("| grammar | rules N | characters n | N × (n+1) | rounds | mean round ms | all ms |");
    println!("|---|---:|---:|---:|---:|---:|---:|");
    for (what, job) in rows {
        let read = Rounds::start(&job.grammar, &job.record).expect("a read");
        let characters = read.most() / read.rules() - 1;
        let cut = measure(&job);
        let all = cut.start + cut.rounds.iter().sum() + cut.end.unwrap_or_default();
        println!(
            "| {what} | {} | {characters} | {} | {} | {} | {} |",
            read.rules(),
            read.most(),
            cut.rounds.len(),
            milliseconds(cut.mean()),
            milliseconds(all),
        );
    }
}

pub fn rounds_table() {
    times();
    println!();
    counts();
}

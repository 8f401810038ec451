//! Times of the library's calls beside the yardstick's, as Markdown tables.
//!
//! Arguments choose among the tables: `check`, `read`, `hard`, `fails`, `dense`,
//! `convert`, `write`, `judge`, `rounds`.

#[path = "../tests/common/mod.rs"]
mod common;
#[path = "tables/rounds.rs"]
mod rounds;

use std::hint::black_box;
use std::time::Duration;

use common::{grammars, jobs, processor_time, size, Call, Converting, Job, Reading, Room};
use ixml::limits::{GRAMMAR_TABLE, MAIN_TABLE, READING_NUMBERS, RECORD_CHARACTERS};
use ixml::{Answer, Error};
use ixml_yardstick::gen::{self, Random};

const TABLES: [(&str, fn()); 9] = [
    ("check", check_table),
    ("read", read_table),
    ("hard", hard_table),
    ("fails", fails_table),
    ("dense", dense_table),
    ("convert", convert_table),
    ("write", write_table),
    ("judge", judge_table),
    ("rounds", rounds::rounds_table),
];

fn main() {
    // Cargo adds an argument of its own.
    let chosen: Vec<String> = std::env::args()
        .skip(1)
        .filter(|a| a != "--bench")
        .collect();
    keep_freed_memory();
    for (name, table) in TABLES {
        if chosen.is_empty() || chosen.iter().any(|choice| choice == name) {
            table();
            println!();
        }
    }
}

/// Has glibc keep what is freed. Else the yardstick, which asks for memory in
/// each call, may get it from the system each time and take up to ten times as
/// long, until some job has freed a large block.
fn keep_freed_memory() {
    const M_TRIM_THRESHOLD: i32 = -1;
    const M_MMAP_THRESHOLD: i32 = -3;
    extern "C" {
        fn mallopt(parameter: i32, value: i32) -> i32;
    }
    for parameter in [M_TRIM_THRESHOLD, M_MMAP_THRESHOLD] {
        // SAFETY: sets a number of the allocator; no other thread runs.
        let set = unsafe { mallopt(parameter, 1 << 30) };
        assert_eq!(set, 1);
    }
}

/// Median times of the library and of the yardstick.
#[derive(Clone, Copy)]
struct Times {
    library: Duration,
    yardstick: Duration,
}

impl Times {
    /// Measures two jobs by turns, so that what else the computer does falls
    /// on both. A run repeats a quick job for about four milliseconds.
    fn measure(mut library: impl FnMut(), mut yardstick: impl FnMut()) -> Times {
        let longer = once(&mut library).max(once(&mut yardstick));
        let runs = if longer > Duration::from_millis(100) {
            3
        } else {
            11
        };
        let (mut first, mut second) = (Vec::new(), Vec::new());
        for _ in 0..runs {
            first.push(run(&mut library));
            second.push(run(&mut yardstick));
        }
        Times {
            library: median(first),
            yardstick: median(second),
        }
    }

    fn ratio(self) -> f64 {
        self.library.as_secs_f64() / self.yardstick.as_secs_f64()
    }
}

fn once(job: &mut impl FnMut()) -> Duration {
    let start = processor_time();
    job();
    (processor_time() - start).max(Duration::from_nanos(100))
}

fn run(job: &mut impl FnMut()) -> Duration {
    let repeats = Duration::from_millis(4).as_nanos() / once(job).as_nanos();
    let repeats = repeats.max(1) as u32;
    let start = processor_time();
    for _ in 0..repeats {
        job();
    }
    (processor_time() - start) / repeats
}

fn median(mut times: Vec<Duration>) -> Duration {
    times.sort();
    times[times.len() / 2]
}

fn milliseconds(time: Duration) -> String {
    format!("{:.3}", time.as_secs_f64() * 1000.0)
}

/// A row: what was measured, then for each time the library's, the yardstick's
/// and how many times as long the library took.
fn row(what: &str, times: &[Times]) {
    print!("| {what} |");
    for times in times {
        print!(
            " {} | {} | {:.1} |",
            milliseconds(times.library),
            milliseconds(times.yardstick),
            times.ratio()
        );
    }
    println!();
}

fn check_table() {
    const KINDS: [&str; 22] = [
        "rules",
        "rules that use the next",
        "rules that use the first",
        "rules with long names",
        "rules with sets",
        "one rule again and again",
        "uses of one undefined name",
        "one long string",
        "one long name",
        "one long hex number",
        "one set of classes",
        "one exclusion of classes",
        "one exclusion of ranges",
        "exclusions",
        "sets that match nothing",
        "a chain of rules",
        "a ring of rules",
        "short literals",
        "repetitions",
        "brackets 16 deep",
        "comments 16 deep",
        "empty alternatives",
    ];
    println!("| checking 4,096 bytes | library ms | yardstick ms | times |");
    println!("|---|---:|---:|---:|");
    let check = |kind: &str, grammar: &[u8]| {
        let number = ixml::check(grammar).number;
        let times = Times::measure(
            || {
                black_box(ixml::check(black_box(grammar)));
            },
            || {
                black_box(ixml_yardstick::check(black_box(grammar)));
            },
        );
        row(&format!("{kind} (answer {number})"), &[times]);
        times
    };
    let mut fields = gen::fields(512);
    fields.push_str(&" ".repeat(4096 - fields.len()));
    check("fields of size 512", fields.as_bytes());
    let grammars = grammars::awkward();
    for kind in KINDS {
        let (_, grammar) = grammars
            .iter()
            .find(|(name, grammar)| *name == kind && grammar.len() <= 4096)
            .expect("a kind of grammar");
        check(kind, grammar.as_bytes());
    }
}

/// Memory that is ample for every job.
struct Memory<C: Call> {
    main_table: Vec<u32>,
    grammar_table: Vec<u32>,
    result: Vec<C::Cell>,
    other_result: Vec<C::Cell>,
}

impl<C: Call> Memory<C>
where
    C::Cell: Default,
{
    fn new(room: usize) -> Memory<C> {
        Memory {
            main_table: vec![0; MAIN_TABLE],
            grammar_table: vec![0; GRAMMAR_TABLE],
            result: vec![C::Cell::default(); room],
            other_result: vec![C::Cell::default(); room],
        }
    }

    /// A job that is to be answered by 0.
    fn measure(&mut self, job: &Job) -> (Answer, Times) {
        let (answer, times) = self.measure_any(job);
        assert_eq!(answer.number, 0, "{job:?}");
        (answer, times)
    }

    /// A job that may be refused.
    fn measure_any(&mut self, job: &Job) -> (Answer, Times) {
        let room = Room {
            main_table: self.main_table.len(),
            grammar_table: self.grammar_table.len(),
            result: self.result.len(),
        };
        let mut library = || {
            C::library(
                black_box(job),
                &mut self.main_table,
                &mut self.grammar_table,
                &mut self.result,
            )
        };
        let mut yardstick = || C::yardstick(black_box(job), room, &mut self.other_result);
        let answer = library();
        assert_eq!(answer, yardstick(), "{job:?}");
        let times = Times::measure(
            || {
                black_box(library());
            },
            || {
                black_box(yardstick());
            },
        );
        (answer, times)
    }
}

const LENGTHS: [usize; 3] = [20, 80, RECORD_CHARACTERS];

/// A name, the grammar of each size, the record of each length, the sizes.
type Family = (
    &'static str,
    fn(usize) -> String,
    fn(usize) -> String,
    [usize; 3],
);

const FAMILIES: [Family; 6] = [
    (
        "fields, plain",
        gen::fields,
        gen::fields_record,
        [48, 192, 512],
    ),
    ("pairs, ambiguous", gen::pairs, gen::letters, [30, 192, 512]),
    (
        "copies, ambiguous",
        gen::copies,
        gen::letters,
        [30, 192, 512],
    ),
    ("stars, ambiguous", gen::stars, gen::letters, [30, 192, 512]),
    ("runs, ambiguous", gen::runs, gen::letters, [30, 192, 512]),
    ("chains, plain", gen::chains, gen::letters, [30, 192, 512]),
];

fn families_table<C: Call>(title: &str, mut memory: Memory<C>)
where
    C::Cell: Default,
{
    print!("| {title} |");
    for length in LENGTHS {
        print!(" {length}: library ms | yardstick ms | times |");
    }
    println!("\n|---|{}", "---:|---:|---:|".repeat(LENGTHS.len()));
    for (name, grammar, record, sizes) in FAMILIES {
        for size in sizes {
            let grammar = grammar(size);
            let times = LENGTHS.map(|length| {
                let job = Job::new(&grammar, record(length));
                memory.measure(&job).1
            });
            row(&format!("{name}, size {size}"), &times);
        }
    }
}

fn read_table() {
    families_table::<Reading>("reading, by characters", Memory::new(READING_NUMBERS));
}

/// Grammars that an engine might find hard: long readings, recursion of each
/// kind, and rules that derive a stretch in very many ways.
fn hard_table() {
    const X: [(&str, &str); 8] = [
        ("left recursion", "a: a, 'x'; ."),
        ("right recursion", "a: 'x', a; ."),
        ("all recursion", "a: a; a, a; 'x'; ."),
        ("palindromes", "a: 'x', a, 'x'; 'x'; ."),
        ("nested stars", "a: ((('x'*)*)*)*."),
        ("a list", "a: l+. l: 'x'."),
        (
            "an expression",
            "e: e, 'x', e; e, e; 'x'; t. t: t, t; e; 'x'.",
        ),
        (
            "rules that derive themselves",
            "a: a; b. b: a; 'x', b; 'x'.",
        ),
    ];
    let x = "x".repeat(RECORD_CHARACTERS);
    let too_long = Error::ReadingTooLong.number();
    let mut rows = vec![
        ("4,096 deep", jobs::deep("", 4096), 0),
        ("4,097 deep", jobs::deep("", 4097), too_long),
        ("wide, 4,096 numbers", jobs::wide(), 0),
        ("doublings, 4,095 numbers", jobs::doublings("", 11), 0),
        (
            "doublings, 8,191 numbers",
            jobs::doublings("", 12),
            too_long,
        ),
    ];
    rows.extend(X.map(|(what, grammar)| (what, Job::new(grammar, &x), 0)));
    let mut memory: Memory<Reading> = Memory::new(READING_NUMBERS);
    println!("| hard grammars | answer | numbers | library ms | yardstick ms | times |");
    println!("|---|---:|---:|---:|---:|---:|");
    for (what, job, number) in rows {
        let (answer, times) = memory.measure_any(&job);
        assert_eq!(answer.number, number, "{job:?}");
        let what = format!("{what} | {number} | {}", answer.length);
        row(&what, &[times]);
    }
}

/// Records that the grammar does not derive, by the place of a character that
/// no rule has.
fn fails_table() {
    const NO_READING: u32 = 16;
    let mut memory: Memory<Reading> = Memory::new(READING_NUMBERS);
    print!("| failing, by size and characters |");
    for place in ["early", "middle", "late"] {
        print!(" {place}: library ms | yardstick ms | times |");
    }
    println!("\n|---|{}", "---:|---:|---:|".repeat(3));
    for (name, grammar, record, _) in FAMILIES {
        for size in [48, 512] {
            let grammar = grammar(size);
            for length in [20, 80, RECORD_CHARACTERS] {
                let times = [1, length / 2, length - 2].map(|place| {
                    let mut record = record(length);
                    record.replace_range(place..=place, "!");
                    let job = Job::new(&grammar, record);
                    let (answer, times) = memory.measure_any(&job);
                    assert_eq!(answer.number, NO_READING, "{job:?}");
                    times
                });
                row(&format!("{name}, size {size}, {length} characters"), &times);
            }
        }
    }
    // Closing brackets too many: the flags do not count them, and reach the record's end.
    for (name, grammar) in [
        ("brackets", "e: '(', e, ')'; 'x'."),
        ("sums in brackets", "e: t; e, '+', t. t: '(', e, ')'; 'x'."),
    ] {
        for length in [20, 80, RECORD_CHARACTERS] {
            let times = [1, length / 4, length / 2 - 2].map(|depth| {
                let closing = ")".repeat(length - depth - 1);
                let job = Job::new(grammar, "(".repeat(depth) + "x" + &closing);
                let (answer, times) = memory.measure_any(&job);
                assert_eq!(answer.number, NO_READING, "{job:?}");
                times
            });
            row(&format!("{name}, {length} characters"), &times);
        }
    }
}

/// A random grammar whose symbols are mostly nonterminals.
fn dense_grammar(random: &mut Random) -> String {
    let rules = 2 + random.below(20);
    dense_rules(random, rules)
}

fn dense_rules(random: &mut Random, rules: usize) -> String {
    let mut text = String::new();
    for rule in 0..rules {
        let alternatives: Vec<String> = (0..1 + random.below(6))
            .map(|_| {
                let symbols: Vec<String> = (0..random.below(6))
                    .map(|_| match random.below(8) {
                        0 => "'x'".to_string(),
                        1 => "'y'".to_string(),
                        _ => format!("r{}", random.below(rules)),
                    })
                    .collect();
                symbols.join(", ")
            })
            .collect();
        text.push_str(&format!("r{rule}: {} . ", alternatives.join("; ")));
    }
    text
}

/// A random dense grammar that is accepted, with a record of its characters,
/// if this seed gives one.
fn dense_job(seed: u64) -> Option<Job> {
    let random = &mut Random::new(seed);
    let grammar = dense_grammar(random);
    let length = 10 + random.below(RECORD_CHARACTERS - 9);
    let record: String = (0..length).map(|_| *random.pick(&['x', 'y'])).collect();
    let accepted = ixml::check(grammar.as_bytes()).number == 0;
    accepted.then(|| Job::new(grammar, record))
}

/// Random dense grammars: the ratios in order, and the jobs with the greatest.
/// Their texts go to the standard error.
fn dense_table() {
    const JOBS: usize = 100;
    const WORST: usize = 6;
    let mut memory: Memory<Reading> = Memory::new(READING_NUMBERS);
    let jobs = (0..).filter_map(|seed| dense_job(seed).map(|job| (seed, job)));
    let mut measured: Vec<(u64, Job, Answer, Times)> = jobs
        .take(JOBS)
        .map(|(seed, job)| {
            let (answer, times) = memory.measure_any(&job);
            (seed, job, answer, times)
        })
        .collect();
    measured.sort_by(|one, other| one.3.ratio().total_cmp(&other.3.ratio()));

    println!("| dense grammars, by answer | jobs | least times | median | 90 % | worst |");
    println!("|---|---:|---:|---:|---:|---:|");
    let summary = |what: &str, wanted: &dyn Fn(u32) -> bool| {
        let jobs = measured.iter().filter(|job| wanted(job.2.number));
        let ratios: Vec<f64> = jobs.map(|job| job.3.ratio()).collect();
        let Some(last) = ratios.len().checked_sub(1) else {
            return;
        };
        let cells = [0, 50, 90, 100].map(|percent| format!("{:.1}", ratios[last * percent / 100]));
        println!("| {what} | {} | {} |", ratios.len(), cells.join(" | "));
    };
    summary("all", &|_| true);
    summary("read (0)", &|number| number == 0);
    summary("refused (16, 29)", &|number| number != 0);

    println!("\n| the worst of them | seed | answer | library ms | yardstick ms | times |");
    println!("|---|---:|---:|---:|---:|---:|");
    for (seed, job, answer, times) in measured.iter().rev().take(WORST) {
        let rules = job.grammar.iter().filter(|&&byte| byte == b':').count();
        let size = size(&job.grammar).expect("accepted");
        let length = job.record.len();
        let what = format!("{rules} rules, size {size}, {length} characters");
        row(&format!("{what} | {seed} | {}", answer.number), &[*times]);
        eprintln!("seed {seed}: {job:?}");
    }
}

fn convert_table() {
    families_table::<Converting>("converting, by characters", Memory::new(1 << 16));
}

/// Long readings: what is left of converting without reading is writing.
fn write_table() {
    let name = "n".repeat(500);
    let long = jobs::wide();
    let long = String::from_utf8(long.grammar).expect("text");
    let long = long.replace("d: .", &format!("d: {name} . {name}: ."));
    let long = long.replacen("b,", "", 8);
    let rows = [
        ("elements 4,096 deep", jobs::deep("", 4096)),
        ("deleted nodes 4,096 deep", jobs::deep("-", 4096)),
        ("attributes 4,096 deep", jobs::deep("@", 4096)),
        ("elements 4 deep, 4,096 in all", jobs::wide()),
        ("names of 500 letters", Job::new(long, "")),
        ("4,095 elements 12 deep", jobs::doublings("", 11)),
        ("60 attributes of one element", jobs::attributes(60)),
    ];
    let mut reading: Memory<Reading> = Memory::new(READING_NUMBERS);
    let mut converting: Memory<Converting> = Memory::new(1 << 23);
    println!(
        "| long readings | numbers | bytes | reading: library ms | yardstick ms | times \
         | converting: library ms | yardstick ms | times |"
    );
    println!("|---|---:|---:|---:|---:|---:|---:|---:|---:|");
    for (what, job) in rows {
        let (read, reading) = reading.measure(&job);
        let (converted, converting) = converting.measure(&job);
        let what = format!("{what} | {} | {}", read.length, converted.length);
        row(&what, &[reading, converting]);
    }
}

/// Lists of any length, judged: the time grows with the list and the XML.
fn judge_table() {
    let deep = |count: usize| [vec![0; count], vec![1]].concat();
    let chain = |count: usize| [vec![0; 2 * count + 1], vec![1]].concat();
    let shapes: [(&str, &str, &dyn Fn(usize) -> Vec<u32>); 7] = [
        ("elements nested", "a: a; 'x'.", &deep),
        ("deleted nodes nested", "a: -a; 'x'.", &deep),
        (
            "nodes nested in an attribute",
            "a: @b. b: b; 'x'.",
            &|count| [vec![0], deep(count)].concat(),
        ),
        ("elements in a row", "a: -r. r: b, -r; . b: .", &chain),
        ("deleted nodes in a row", "a: -r. r: -b, -r; . b: .", &chain),
        (
            "elements in a row, by halves",
            "a: -r. r: -r, -r; b. b: .",
            &|count| [vec![0], halves(count)].concat(),
        ),
        ("out of range at the end", "a: a; 'x'.", &|count| {
            [vec![0; count], vec![2]].concat()
        }),
    ];
    println!("| A list | Nodes | Numbers | Answer | XML, bytes | ms | ns for a number |");
    println!("|---|---:|---:|---:|---:|---:|---:|");
    for (what, grammar, make) in shapes {
        for count in [100_000, 1_000_000, 10_000_000] {
            let list = make(count);
            let record: &[u8] = if grammar.contains('x') { b"x" } else { b"" };
            let table = vec![0; GRAMMAR_TABLE];
            let mut scratch = vec![0; 2 * list.len()];
            let mut result = vec![0; 8 * count + 64];
            let mut answer = Answer::default();
            let time = once(&mut || {
                answer = ixml::judge(
                    grammar.as_bytes(),
                    record,
                    &list,
                    &table,
                    &mut scratch,
                    &mut result,
                );
            });
            println!(
                "| {what} `{grammar}` | {count} | {} | {} | {} | {} | {:.0} |",
                list.len(),
                answer.number,
                answer.length,
                milliseconds(time),
                time.as_nanos() as f64 / list.len() as f64
            );
        }
    }
}

/// The left parse of a row of elements that is halved until one is left.
fn halves(count: usize) -> Vec<u32> {
    let mut numbers = Vec::new();
    let mut open = vec![count];
    while let Some(count) = open.pop() {
        match count {
            0 | 1 => numbers.extend([1, 0]),
            _ => {
                numbers.push(0);
                open.push(count - count / 2);
                open.push(count / 2);
            }
        }
    }
    numbers
}

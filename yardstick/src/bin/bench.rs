//! Times of the public calls, as a Markdown table.

use std::hint::black_box;
use std::time::{Duration, Instant};

use ixml_yardstick::limits::{main_table, GRAMMAR_TABLE, RECORD_CHARACTERS};
use ixml_yardstick::{check, convert, gen, statics, syntax};

const RUNS: usize = 21;
const LENGTHS: [usize; 3] = [20, 80, RECORD_CHARACTERS];

/// The median over several runs, each repeated for at least a few
/// milliseconds.
fn median(mut job: impl FnMut()) -> Duration {
    let start = Instant::now();
    job();
    let once = start.elapsed().max(Duration::from_nanos(100));
    let repeats = (Duration::from_millis(4).as_nanos() / once.as_nanos()).max(1) as u32;
    let mut times: Vec<Duration> = (0..RUNS)
        .map(|_| {
            let start = Instant::now();
            for _ in 0..repeats {
                job();
            }
            start.elapsed() / repeats
        })
        .collect();
    times.sort();
    times[RUNS / 2]
}

fn milliseconds(time: Duration) -> String {
    format!("{:.3}", time.as_secs_f64() * 1000.0)
}

/// Time to convert a record in ample room.
fn convert_time(grammar: &str, record: &str) -> Duration {
    let table = main_table(size(grammar), RECORD_CHARACTERS);
    let mut result = vec![0; 1 << 16];
    let mut run = || {
        let (grammar, record) = (black_box(grammar.as_bytes()), black_box(record.as_bytes()));
        convert(grammar, record, table, GRAMMAR_TABLE, &mut result)
    };
    assert_eq!(run().number, 0, "{grammar} {record}");
    median(|| {
        black_box(run());
    })
}

fn size(grammar: &str) -> usize {
    statics::size(&syntax::read(grammar).expect("an ixml grammar"))
}

/// A name, the grammar of each size, and the record of each length.
type Family = (&'static str, fn(usize) -> String, fn(usize) -> String);

fn main() {
    let families: [Family; 6] = [
        ("fields, unambiguous", gen::fields, gen::fields_record),
        ("pairs, ambiguous", gen::pairs, gen::letters),
        ("copies, ambiguous", gen::copies, gen::letters),
        ("stars, ambiguous", gen::stars, gen::letters),
        ("runs, ambiguous", gen::runs, gen::letters),
        ("chains, unambiguous", gen::chains, gen::letters),
    ];
    println!("| converting | size | 20 characters | 80 characters | 200 characters |");
    println!("|---|---:|---:|---:|---:|");
    for (name, grammar, record) in families {
        for size in [48, 192, 512] {
            let grammar = grammar(size);
            let times = LENGTHS.map(|n| milliseconds(convert_time(&grammar, &record(n))));
            println!("| {name} | {size} | {} ms |", times.join(" ms | "));
        }
    }
    println!();
    println!("| checking | bytes | time |");
    println!("|---|---:|---:|");
    for (name, grammar) in check_grammars() {
        let bytes = grammar.as_bytes();
        let time = median(|| {
            black_box(check(black_box(bytes)));
        });
        let number = check(bytes).number;
        println!(
            "| {name} (answer {number}) | {} | {} ms |",
            bytes.len(),
            milliseconds(time)
        );
    }
}

/// Grammars of the greatest length.
fn check_grammars() -> [(&'static str, String); 3] {
    let pad = |mut grammar: String| {
        let missing = 4096 - grammar.len() - 2;
        grammar.push_str(&format!("{{{}}}", "c".repeat(missing)));
        grammar
    };
    let mut rules = String::new();
    for number in 0.. {
        let rule = format!("rule{number}: 'a', rule0; ['b'-'y'; Nd]. ");
        if rules.len() + rule.len() + 2 > 4096 {
            break;
        }
        rules.push_str(&rule);
    }
    [
        ("fields of size 512, and a comment", pad(gen::fields(512))),
        ("rules of more than size 512", pad(rules)),
        ("one long string", format!("a: '{}'.", "x".repeat(4090))),
    ]
}

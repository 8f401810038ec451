//! The tool behind `host/calls`: all shared test vectors, and made-up jobs.

mod common;

use std::io::Write;
use std::process::{Command, Stdio};
use std::thread;

use common::{grammars, vectors, yardstick, Call, Converting, Job, Reading, Room};
use ixml::limits::GRAMMAR_TABLE;
use ixml::Answer;
use ixml_yardstick::gen::Random;

/// What the tool writes for an input, and its exit code.
fn run(input: String) -> (String, Option<i32>) {
    let mut tool = Command::new(env!("CARGO_BIN_EXE_calls"))
        .stdin(Stdio::piped())
        .stdout(Stdio::piped())
        .stderr(Stdio::null())
        .spawn()
        .expect("the tool runs");
    let mut stdin = tool.stdin.take().expect("a pipe");
    // Lines are written while answers are read, so neither pipe can fill up.
    // A tool that stops early closes its end.
    let writer = thread::spawn(move || stdin.write_all(input.as_bytes()));
    let output = tool.wait_with_output().expect("output");
    let _ = writer.join().expect("no panic");
    let text = String::from_utf8(output.stdout).expect("text");
    (text, output.status.code())
}

/// Runs lines of input; each must give the line of output beside it.
fn run_lines(lines: Vec<(String, String)>) {
    let input: String = lines.iter().map(|line| format!("{}\n", line.0)).collect();
    let (output, code) = run(input);
    assert_eq!(code, Some(0));
    let mut written = output.lines();
    for (input, output) in &lines {
        assert_eq!(written.next(), Some(output.as_str()), "{input}");
    }
    assert_eq!(written.next(), None);
}

fn run_vectors(call: &str, least: usize) {
    let vectors = vectors::of(call).into_iter();
    let lines: Vec<_> = vectors
        .map(|vector| (vector.input, vector.output))
        .collect();
    assert!(lines.len() >= least);
    run_lines(lines);
}

#[test]
fn vectors_of_check() {
    run_vectors("check", 500);
}

#[test]
fn vectors_of_read() {
    run_vectors("read", 1200);
}

#[test]
fn vectors_of_convert() {
    run_vectors("convert", 1400);
}

#[test]
fn vectors_of_category() {
    let line = |(code, name): (u32, String)| (format!("category\t{code}"), name);
    run_lines(vectors::categories().into_iter().map(line).collect());
}

#[test]
fn vectors_of_tidy() {
    let lines = vectors::lines_of("tidy", 3);
    assert!(lines.len() > 500);
    run_lines(lines);
}

#[test]
fn vectors_of_judge() {
    let lines = vectors::lines_of("judge", 7);
    assert!(lines.len() > 500);
    run_lines(lines);
}

#[test]
fn vectors_of_reads_in_rounds() {
    let cut = vectors::lines_of("cut", 7);
    assert!(cut.len() > 500);
    run_lines(cut);
    let rounds = vectors::lines_of("rounds", 3);
    assert!(rounds.len() > 90);
    run_lines(rounds);
}

#[test]
fn vectors_of_gates() {
    let lines = vectors::lines_of("gate", 5);
    assert!(lines.len() > 800);
    run_lines(lines);
}

#[test]
fn vectors_of_numbers() {
    let lines = vectors::lines_of("number", 2);
    assert!(lines.len() > 200);
    run_lines(lines);
}

fn hex(bytes: &[u8]) -> String {
    match bytes {
        [] => "-".to_string(),
        _ => bytes.iter().map(|byte| format!("{byte:02x}")).collect(),
    }
}

fn output(answer: Answer, result: &str) -> String {
    let marks = [answer.ambiguous, answer.version].map(u8::from);
    let result = if result.is_empty() { "-" } else { result };
    format!(
        "{}\t{}\t{}\t{}\t{result}\t{}\t{}\t{}",
        answer.number,
        answer.length,
        marks[0],
        marks[1],
        answer.places.byte,
        answer.places.fault,
        answer.places.grammar
    )
}

#[test]
fn made_up_grammars_agree_with_the_yardstick() {
    let mut random = Random::new(6);
    let line = |_| {
        let grammar = grammars::made_up(&mut random);
        let answer = yardstick(ixml_yardstick::check(&grammar));
        let input = format!("check\t{}\t-\t0\t0\t0", hex(&grammar));
        (input, output(answer, ""))
    };
    run_lines((0..100_000).map(line).collect());
}

/// Jobs in about the room that they need, for the call of this name.
fn run_made_up_jobs<C: Call>(call: &str, write: fn(&[C::Cell]) -> String)
where
    C::Cell: Default,
{
    let mut random = Random::new(7);
    let mut result = vec![C::Cell::default(); 4096];
    let line = |_| {
        let job = Job::made_up(&mut random);
        let needed = job.main_table().unwrap_or(1 + random.below(100));
        let surplus = *random.pick(&[0, 0, 0, 0, 0, 5, -1]);
        let mut room = Room {
            main_table: (needed + *random.pick(&[0, 0, 0, 7])) - usize::from(random.chance(5)),
            grammar_table: GRAMMAR_TABLE.wrapping_add_signed(surplus),
            result: result.len(),
        };
        let answer = C::yardstick(&job, room, &mut result);
        room.result = answer.length + *random.pick(&[0, 0, 3, 100]);
        if random.chance(10) {
            room.result = room.result.min(answer.length).saturating_sub(1);
        }
        let answer = C::yardstick(&job, room, &mut result[..room.result]);
        let input = format!(
            "{call}\t{}\t{}\t{}\t{surplus}\t{}",
            hex(&job.grammar),
            hex(&job.record),
            room.main_table,
            room.result
        );
        (input, output(answer, &write(&result[..answer.length])))
    };
    run_lines((0..10_000).map(line).collect());
}

#[test]
fn made_up_jobs_are_read_as_the_yardstick_does() {
    run_made_up_jobs::<Reading>("read", |numbers| {
        let numbers: Vec<String> = numbers.iter().map(u32::to_string).collect();
        numbers.join(",")
    });
}

#[test]
fn made_up_jobs_are_converted_as_the_yardstick_does() {
    run_made_up_jobs::<Converting>("convert", hex);
}

#[test]
fn lines_that_are_no_jobs_are_refused() {
    let wrong = [
        "",
        "check",
        "check\t",
        "check\t6\t-\t0\t0\t0",
        "check\t6g\t-\t0\t0\t0",
        "chck\t61\t-\t0\t0\t0",
        "check\t61\t-\t0\t0",
        "check\t61\t-\t-1\t0\t0",
        "check\t61\t-\t0\t-16385\t0",
        "check\t61\t-\t0\t0\tx",
        "gate\tbox\t-\t30\t30",
        "gate\tband\t0,0,0\t30\t30",
        "gate\tanywhere\tx\t30\t30",
        "gate\tanywhere\t-\t3\t30",
        "gate\tanywhere\t-\t30",
        "number\tx",
    ];
    for line in wrong {
        let right = "check\t-\t-\t0\t0\t0";
        let (output, code) = run(format!("{right}\n{line}\n{right}\n"));
        assert_eq!(
            (output.as_str(), code),
            ("4\t0\t0\t0\t-\t0\t0\t0\n", Some(2)),
            "{line:?}"
        );
    }
    let (output, code) = run(String::new());
    assert_eq!((output.as_str(), code), ("", Some(0)));
}

//! Runs calls that are given as lines of text.
//!
//! A line of standard input has what a call is given, in the columns that
//! `tests/vectors/README.md` names, and may have more; a line of standard output
//! has what it answers, in eight columns, and a ninth with the word `touched` if
//! the call changed a cell that is not its result's. The last three of the eight
//! are the places. A line for the category call is answered
//! by the category's letters alone, one for a gate by the number and the verdict,
//! one for a number text by the bits of its value. A read that is cut into rounds
//! has a column more, the rounds, before the word.

mod gate;
mod lent;
mod rounds;

use std::fmt::Write as _;
use std::io::{self, BufRead, Write as _};
use std::process::ExitCode;
use std::thread;

use ixml::limits::GRAMMAR_TABLE;
use ixml::Answer;
use lent::{Cell, Lent};

/// The stack that every call must do with.
const STACK: usize = 1 << 20;

/// The seed of the pattern that fills what is lent.
const SEED: u32 = 0xA5A5_5A5A;

fn main() -> ExitCode {
    let run = thread::Builder::new().stack_size(STACK).spawn(run);
    let outcome = match run.map(thread::JoinHandle::join) {
        Ok(Ok(outcome)) => outcome,
        Ok(Err(_)) => return ExitCode::FAILURE,
        Err(error) => Err(format!("cannot start a thread: {error}")),
    };
    match outcome {
        Ok(()) => ExitCode::SUCCESS,
        Err(error) => {
            eprintln!("calls: {error}");
            ExitCode::from(2)
        }
    }
}

fn run() -> Result<(), String> {
    let mut output = io::stdout().lock();
    for (number, line) in (1..).zip(io::stdin().lock().lines()) {
        let at_line = |error: String| format!("line {number}: {error}");
        let line = line.map_err(|error| at_line(error.to_string()))?;
        let answer = answer(&line).map_err(at_line)?;
        writeln!(output, "{answer}").map_err(|error| at_line(error.to_string()))?;
    }
    Ok(())
}

/// A call with tables and a result.
type OnTables<T> = fn(&[u8], &[u8], &mut [u32], &mut [u32], &mut [T]) -> Answer;

#[derive(Clone, Copy)]
enum Call {
    Check,
    /// By one of the two engines.
    Read(OnTables<u32>),
    Convert,
}

/// The answer to a line of input.
fn answer(line: &str) -> Result<String, String> {
    let fields: Vec<&str> = line.split('\t').collect();
    match fields[..] {
        ["category", code, ..] => {
            let code = number(code)?;
            Ok(ixml::category(code).map_or("-".to_string(), |known| known.to_string()))
        }
        ["gate", kind, limits, lat, lon, ..] => {
            gate::ruling(kind, limits, &bytes(lat)?, &bytes(lon)?)
        }
        ["number", text, ..] => Ok(gate::value(&bytes(text)?)),
        ["tidy", grammar, room, ..] => Ok(tidied(&bytes(grammar)?, number(room)?)),
        ["judge", grammar, record, list, surplus, scratch, room, ..] => {
            let list = List {
                grammar: bytes(grammar)?,
                record: bytes(record)?,
                numbers: numbers(list)?,
            };
            Ok(list.judged(grammar_table(surplus)?, number(scratch)?, number(room)?))
        }
        ["cut", _, _, _, _, _, rounds, ..] => Ok(rounds::cut(&Job::parse(line)?, number(rounds)?)),
        ["rounds", grammar, record, ..] => rounds::rounds(&bytes(grammar)?, &bytes(record)?),
        _ => Ok(Job::parse(line)?.run()),
    }
}

/// A list that is to be judged.
struct List {
    grammar: Vec<u8>,
    record: Vec<u8>,
    numbers: Vec<u32>,
}

impl List {
    /// The line of output.
    fn judged(&self, grammar_table: usize, scratch: usize, room: usize) -> String {
        let mut grammar_table = Lent::new(grammar_table, SEED);
        let mut scratch = Lent::new(scratch, SEED);
        let mut result = Lent::new(room, SEED);
        let answer = ixml::judge(
            &self.grammar,
            &self.record,
            &self.numbers,
            grammar_table.lend(),
            scratch.lend(),
            result.lend(),
        );
        let filled = filled(answer, room);
        let touched = result.touched_behind(filled)
            || grammar_table.touched_behind(0)
            || scratch.guards_touched();
        output(answer, &hex(&result.cells()[..filled]), &[], touched)
    }
}

/// The length of a grammar table, by how much it has over what it needs.
fn grammar_table(surplus: &str) -> Result<usize, String> {
    let surplus: isize = number(surplus)?;
    GRAMMAR_TABLE
        .checked_add_signed(surplus)
        .ok_or_else(|| format!("a grammar table of {surplus} more than {GRAMMAR_TABLE}"))
}

/// A line of input.
struct Job {
    call: Call,
    grammar: Vec<u8>,
    record: Vec<u8>,
    main_table: usize,
    grammar_table: usize,
    result: usize,
}

impl Job {
    fn parse(line: &str) -> Result<Job, String> {
        let mut fields = line.split('\t');
        let mut field = |name: &str| fields.next().ok_or_else(|| format!("no {name}"));
        let call = match field("call")? {
            "check" => Call::Check,
            "read" | "cut" => Call::Read(ixml::read),
            "read_plain" => Call::Read(ixml::read_plain),
            "convert" => Call::Convert,
            other => return Err(format!("there is no call {other:?}")),
        };
        let grammar = bytes(field("grammar")?)?;
        let record = bytes(field("record")?)?;
        let main_table = number(field("main table length")?)?;
        let grammar_table = grammar_table(field("grammar table length")?)?;
        let result = number(field("result length")?)?;
        Ok(Job {
            call,
            grammar,
            record,
            main_table,
            grammar_table,
            result,
        })
    }

    /// The answer of a call, what it wrote, and whether it wrote behind that.
    fn filled<T: Cell>(
        &self,
        call: OnTables<T>,
        main_table: &mut Lent<u32>,
        grammar_table: &mut Lent<u32>,
        text: fn(&[T]) -> String,
    ) -> (Answer, String, bool) {
        let mut result = Lent::new(self.result, SEED);
        let (main, grammar) = (main_table.lend(), grammar_table.lend());
        let answer = call(&self.grammar, &self.record, main, grammar, result.lend());
        let filled = filled(answer, self.result);
        let touched = result.touched_behind(filled);
        (answer, text(&result.cells()[..filled]), touched)
    }

    /// The line of output.
    fn run(&self) -> String {
        let mut main_table = Lent::new(self.main_table, SEED);
        let mut grammar_table = Lent::new(self.grammar_table, SEED);
        let (answer, result, mut touched) = match self.call {
            Call::Check => (ixml::check(&self.grammar), "-".to_string(), false),
            Call::Read(read) => self.filled(read, &mut main_table, &mut grammar_table, decimal),
            Call::Convert => self.filled(ixml::convert, &mut main_table, &mut grammar_table, hex),
        };
        touched |= main_table.guards_touched() || grammar_table.guards_touched();
        output(answer, &result, &[], touched)
    }
}

/// The line of output for tidying a grammar.
fn tidied(grammar: &[u8], room: usize) -> String {
    let mut result = Lent::new(room, SEED);
    let answer = ixml::tidy(grammar, result.lend());
    let filled = filled(answer, room);
    let text = hex(&result.cells()[..filled]);
    output(answer, &text, &[], result.touched_behind(filled))
}

/// The columns of an answer, and of the rounds if it has any.
fn output(answer: Answer, result: &str, rounds: &[usize], touched: bool) -> String {
    let mut line = format!(
        "{}\t{}\t{}\t{}\t{result}\t{}\t{}\t{}",
        answer.number,
        answer.length,
        u8::from(answer.ambiguous),
        u8::from(answer.version),
        answer.places.byte,
        answer.places.fault,
        answer.places.grammar,
    );
    for count in rounds {
        let _ = write!(line, "\t{count}");
    }
    if touched {
        line.push_str("\ttouched");
    }
    line
}

/// How many cells are the result.
fn filled(answer: Answer, room: usize) -> usize {
    match answer.number {
        0 => answer.length.min(room),
        _ => 0,
    }
}

fn number<T: std::str::FromStr>(text: &str) -> Result<T, String> {
    text.parse().map_err(|_| format!("{text:?} is no number"))
}

/// The numbers of a column, with commas between.
fn numbers(text: &str) -> Result<Vec<u32>, String> {
    match text {
        "-" => Ok(Vec::new()),
        _ => text.split(',').map(number).collect(),
    }
}

/// The bytes of a hex column.
fn bytes(text: &str) -> Result<Vec<u8>, String> {
    let digit = |&byte: &u8| char::from(byte).to_digit(16).map(|digit| digit as u8);
    if text == "-" {
        return Ok(Vec::new());
    }
    let pairs = text.as_bytes().chunks(2);
    pairs
        .map(|pair| match pair {
            [high, low] => Some(digit(high)? << 4 | digit(low)?),
            _ => None,
        })
        .collect::<Option<Vec<u8>>>()
        .ok_or_else(|| format!("{text:?} is no hex column"))
}

fn hex(bytes: &[u8]) -> String {
    if bytes.is_empty() {
        return "-".to_string();
    }
    bytes.iter().fold(String::new(), |mut text, byte| {
        let _ = write!(text, "{byte:02x}");
        text
    })
}

fn decimal(numbers: &[u32]) -> String {
    if numbers.is_empty() {
        return "-".to_string();
    }
    let numbers: Vec<String> = numbers.iter().map(u32::to_string).collect();
    numbers.join(",")
}

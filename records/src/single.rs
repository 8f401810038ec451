//! The commands on one grammar, or on one grammar and one record.

use std::fmt::Display;
use std::io::{self, Write};
use std::path::Path;

use ixml::limits::MAIN_TABLE;

use crate::batch;
use crate::diagnosis::{diagnose, Source};
use crate::progress::grouped;
use crate::readings;
use crate::tree;
use crate::worker::{self, Worker};
use crate::Status;

/// What the program `./ixml` lends.
const PROGRAM_TABLE: usize = 16_384;

pub fn say(text: &str) -> io::Result<Status> {
    let mut out = io::stdout().lock();
    out.write_all(text.as_bytes())?;
    out.flush()?;
    Ok(Status::Well)
}

/// The bytes of a file; if it cannot be read it is said why.
pub fn source(file: &str) -> Option<Vec<u8>> {
    match batch::read(file) {
        Ok(bytes) => Some(bytes),
        Err(error) => {
            eprintln!("{file}: {error}");
            None
        }
    }
}

/// Whether the grammar is accepted; if not it is said why.
pub fn accepted(file: &str, grammar: &[u8]) -> bool {
    let answer = ixml::check(grammar);
    if answer.number != 0 {
        let source = Source::file(file, grammar);
        eprintln!("{}", diagnose(answer, source, source, None));
    }
    answer.number == 0
}

pub fn check(file: &str, table: Option<usize>) -> io::Result<Status> {
    let Some(grammar) = source(file) else {
        return Ok(Status::Failed);
    };
    if !accepted(file, &grammar) {
        return Ok(Status::Refused);
    }
    let size = worker::size(&grammar);
    let mut text = format!("{file}: accepted, of size {size}\n");
    if ixml::check(&grammar).version {
        text += "its prolog names another version than 1.0; it is read as 1.0\n";
    }
    let tables = match table {
        Some(table) => vec![table],
        None => vec![PROGRAM_TABLE, MAIN_TABLE],
    };
    for table in tables {
        let reads = match worker::longest(size, table) {
            Some(longest) => format!("reads records of up to {longest} characters"),
            None => "is too short for any record".into(),
        };
        text += &format!("a main table of {} numbers {reads}\n", grouped(table));
    }
    say(&text)
}

pub fn tidy(check: bool, files: &[String]) -> Status {
    let outcomes = files.iter().map(|file| tidied(file, check));
    outcomes.max().unwrap_or(Status::Well)
}

fn tidied(file: &str, check: bool) -> Status {
    let complain = |complaint: &dyn Display, status: Status| {
        eprintln!("{file}: {complaint}");
        status
    };
    let Some(grammar) = source(file) else {
        return Status::Failed;
    };
    if !accepted(file, &grammar) {
        return Status::Refused;
    }
    let text = match ixml::tidy_text(&grammar) {
        Ok(text) => text,
        Err(refusal) => return complain(&refusal, Status::Refused),
    };
    if file == batch::STANDARD_INPUT {
        return match say(&text) {
            Ok(status) => status,
            Err(error) => complain(&error, Status::Failed),
        };
    }
    if grammar == text.as_bytes() {
        return Status::Well;
    }
    if check {
        return complain(&"not tidy", Status::Refused);
    }
    match ixml::files::replace(Path::new(file), &text) {
        Ok(()) => Status::Well,
        Err(error) => complain(&error, Status::Failed),
    }
}

/// A grammar that is accepted and a record, or how the command ends.
pub fn job(grammar: &str, record: &str) -> Result<(Vec<u8>, Vec<u8>), Status> {
    let bytes = source(grammar).ok_or(Status::Failed)?;
    let text = source(record).ok_or(Status::Failed)?;
    if !accepted(grammar, &bytes) {
        return Err(Status::Refused);
    }
    Ok((bytes, text))
}

pub fn tree(grammar: &str, record: &str, svg: bool, all: bool) -> io::Result<Status> {
    let (bytes, text) = match job(grammar, record) {
        Ok(job) => job,
        Err(status) => return Ok(status),
    };
    let mut worker = Worker::default();
    let (numbers, ambiguous) = match worker.read(&bytes, &text) {
        Ok(reading) => reading,
        Err(answer) => {
            let (of, on) = (Source::file(grammar, &bytes), Source::file(record, &text));
            eprintln!("{}", diagnose(answer, of, on, Some(&mut worker)));
            return Ok(Status::Refused);
        }
    };
    if ambiguous {
        eprintln!("{record}: ambiguous: this is the chosen reading, and there is another");
    }
    let tree = tree::tree(&bytes, &text, &numbers).expect("the library's reading is one");
    let tree = if all { tree } else { tree.plain() };
    say(&if svg { tree.svg() } else { tree.indented() })
}

/// Two readings of an ambiguous record, one under the other, and where they part.
pub fn explain(grammar: &str, record: &str) -> io::Result<Status> {
    let (bytes, text) = match job(grammar, record) {
        Ok(job) => job,
        Err(status) => return Ok(status),
    };
    let mut worker = Worker::default();
    match worker.read(&bytes, &text) {
        Err(answer) => {
            let (of, on) = (Source::file(grammar, &bytes), Source::file(record, &text));
            eprintln!("{}", diagnose(answer, of, on, Some(&mut worker)));
            return Ok(Status::Refused);
        }
        Ok((_, false)) => return say(&format!("{record}: one reading, and no other\n")),
        Ok((_, true)) => {}
    }
    let two = readings::two(&bytes, &text).expect("a second reading of an ambiguous record");
    let [one, other] = &two.readings;
    let mut out = format!("{record}: ambiguous. {}\n\n", two.part());
    out += &beside(
        &titled("chosen", &one.tree),
        &titled("another", &other.tree),
    );
    for (title, reading) in [("chosen", one), ("another", other)] {
        let xml = match &reading.xml {
            Ok(xml) => xml.clone(),
            Err(refusal) => refusal.to_string(),
        };
        out += &format!("\n{title}: {xml}");
    }
    say(&(out + "\n"))
}

fn titled(title: &str, tree: &tree::Node) -> Vec<String> {
    let lines = tree.indented();
    std::iter::once(format!("[{title}]"))
        .chain(lines.lines().map(String::from))
        .collect()
}

/// Two columns, with a mark between lines that differ.
fn beside(left: &[String], right: &[String]) -> String {
    let width = left
        .iter()
        .map(|line| line.chars().count())
        .max()
        .unwrap_or(0);
    let empty = String::new();
    let mut text = String::new();
    for line in 0..left.len().max(right.len()) {
        let (one, other) = (
            left.get(line).unwrap_or(&empty),
            right.get(line).unwrap_or(&empty),
        );
        let mark = if line == 0 || one == other { ' ' } else { '|' };
        text += format!("{one:width$}  {mark}  {other}").trim_end();
        text.push('\n');
    }
    text
}

/// Whether the numbers in a file are a reading of the record, and its XML.
pub fn judge(grammar: &str, record: &str, file: &str) -> io::Result<Status> {
    let (bytes, text) = match job(grammar, record) {
        Ok(job) => job,
        Err(status) => return Ok(status),
    };
    let Some(list) = source(file) else {
        return Ok(Status::Failed);
    };
    let Some(numbers) = numbers(&list) else {
        eprintln!("{file}: no list of numbers of 32 bits, parted by spaces, commas or line ends");
        return Ok(Status::Failed);
    };
    match ixml::Reader::new().judge(&bytes, &text, &numbers) {
        Ok(converted) => say(&format!("{}\n", converted.xml)),
        Err(refusal) => {
            eprintln!("{file}: {refusal}");
            Ok(Status::Refused)
        }
    }
}

/// Numbers parted by commas and white space.
fn numbers(list: &[u8]) -> Option<Vec<u32>> {
    let text = std::str::from_utf8(list).ok()?;
    let words = text.split(|c: char| c == ',' || c.is_ascii_whitespace());
    words
        .filter(|word| !word.is_empty())
        .map(|word| word.parse().ok())
        .collect()
}

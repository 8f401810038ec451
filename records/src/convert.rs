//! `ixml-records convert`.

use std::collections::HashSet;
use std::fs;
use std::io::{self, BufWriter, Write};
use std::path::{Path, PathBuf};

use ixml::Answer;

use crate::args::{Convert, Format};
use crate::batch::{self, Done, Record};
use crate::diagnosis::{diagnose, sentence, Source};
use crate::json::Object;
use crate::progress::{Counts, Progress};
use crate::report::Report;
use crate::single::{accepted, source};
use crate::worker::{Outcome, State, Worker};
use crate::Status;

/// Records without a reading of which it is told what could have followed: that
/// takes some hundred calls for each.
const EXPLAINED: usize = 20;

pub fn convert(wanted: &Convert) -> io::Result<Status> {
    let Some(grammar) = source(&wanted.grammar) else {
        return Ok(Status::Failed);
    };
    if !accepted(&wanted.grammar, &grammar) {
        return Ok(Status::Refused);
    }
    if let Some(directory) = &wanted.output {
        if let Some(name) = named_twice(&wanted.records) {
            eprintln!("ixml-records: two records would be written to {name}.xml");
            return Ok(Status::Failed);
        }
        if let Err(error) = fs::create_dir_all(directory) {
            eprintln!("{directory}: {error}");
            return Ok(Status::Failed);
        }
    }
    let total = match wanted.lines {
        false => Some(wanted.records.len()),
        true if Progress::visible(wanted.quiet) => batch::lines_of(&wanted.records),
        true => None,
    };
    let mut batch = Batch {
        wanted,
        grammar: &grammar,
        out: BufWriter::new(io::stdout().lock()),
        counts: Counts::default(),
        progress: Progress::new(total, wanted.quiet),
        worker: Worker::default(),
        explained: 0,
        report: wanted
            .report
            .as_ref()
            .map(|_| Report::new(&wanted.grammar, &grammar)),
        failed: false,
    };
    let given = batch::given(wanted.records.clone(), wanted.lines);
    let threads = wanted.jobs.unwrap_or_else(batch::threads);
    batch::convert(&grammar, given, threads, |done| batch.done(done))?;
    batch.out.flush()?;
    batch.end()
}

struct Batch<'a> {
    wanted: &'a Convert,
    grammar: &'a [u8],
    out: BufWriter<io::StdoutLock<'static>>,
    counts: Counts,
    progress: Progress,
    worker: Worker,
    explained: usize,
    report: Option<Report>,
    /// A file could not be read or written.
    failed: bool,
}

impl Batch<'_> {
    fn done(&mut self, done: Done) -> io::Result<()> {
        match done {
            Done::Unreadable(file, error) => {
                self.counts.unreadable += 1;
                self.failed = true;
                self.progress.clear();
                eprintln!("{file}: {error}");
            }
            Done::Record(record, outcome) => {
                self.counts.add(outcome.state());
                self.record(&record, &outcome)?;
            }
        }
        self.progress.show(&self.counts);
        Ok(())
    }

    fn record(&mut self, record: &Record, outcome: &Outcome) -> io::Result<()> {
        let diagnosis = match outcome {
            Outcome::Converted { .. } => None,
            Outcome::Refused(answer) => Some(self.diagnosis(record, *answer)),
        };
        if let Some(report) = &mut self.report {
            report.add(record, outcome, diagnosis.as_deref());
        }
        match (self.wanted.format, outcome) {
            (Format::Json, _) => writeln!(self.out, "{}", json(record, outcome))?,
            (Format::Xml, Outcome::Converted { xml, ambiguous, .. }) => {
                if *ambiguous {
                    self.progress.clear();
                    let at = place(record, self.wanted.lines);
                    eprintln!("{at}: ambiguous: the grammar fits the record in more than one way");
                }
                self.xml(record, xml)?;
            }
            (Format::Xml, Outcome::Refused(_)) => {}
        }
        if let (Format::Xml, Some(diagnosis)) = (self.wanted.format, diagnosis) {
            self.progress.clear();
            eprintln!("{diagnosis}");
        }
        Ok(())
    }

    fn diagnosis(&mut self, record: &Record, answer: Answer) -> String {
        let source = Source {
            name: &record.file,
            line: record.line,
            bytes: &record.bytes,
        };
        let grammar = Source::file(&self.wanted.grammar, self.grammar);
        let explain = self.explained < EXPLAINED;
        self.explained += 1;
        let worker = explain.then_some(&mut self.worker);
        diagnose(answer, grammar, source, worker).to_string()
    }

    /// To standard output, or to a file of its own.
    fn xml(&mut self, record: &Record, xml: &str) -> io::Result<()> {
        let Some(directory) = &self.wanted.output else {
            return writeln!(self.out, "{xml}");
        };
        let path = output_path(Path::new(directory), record, self.wanted.lines);
        if let Err(error) = fs::write(&path, format!("{xml}\n")) {
            self.failed = true;
            self.progress.clear();
            eprintln!("{}: {error}", path.display());
        }
        Ok(())
    }

    fn end(mut self) -> io::Result<Status> {
        self.progress.clear();
        if let (Some(report), Some(file)) = (&self.report, &self.wanted.report) {
            if let Err(error) = fs::write(file, report.page(&self.counts)) {
                self.failed = true;
                eprintln!("{file}: {error}");
            }
        }
        if !self.wanted.quiet {
            eprintln!("{}", self.progress.summary(&self.counts));
        }
        let refused = self.counts.of(State::NoReading) + self.counts.of(State::Refused);
        let ambiguous = self.wanted.fail_on_ambiguous && self.counts.of(State::Ambiguous) > 0;
        Ok(if self.failed {
            Status::Failed
        } else if ambiguous {
            Status::Ambiguous
        } else if refused > 0 {
            Status::Refused
        } else {
            Status::Well
        })
    }
}

/// What two files of records are named alike, but for folder and extension.
fn named_twice(files: &[String]) -> Option<String> {
    let mut seen = HashSet::new();
    files
        .iter()
        .map(|file| stem(file))
        .find(|stem| !seen.insert(stem.clone()))
}

fn stem(file: &str) -> String {
    let file = match file {
        batch::STANDARD_INPUT => "stdin",
        file => file,
    };
    let stem = Path::new(file).file_stem().unwrap_or_default();
    stem.to_string_lossy().into_owned()
}

/// The file of a record's XML: named as the record's, with the line's number
/// where records stand on lines.
fn output_path(directory: &Path, record: &Record, lines: bool) -> PathBuf {
    let stem = stem(&record.file);
    let name = if lines {
        format!("{stem}-{}.xml", record.line)
    } else {
        format!("{stem}.xml")
    };
    directory.join(name)
}

fn place(record: &Record, lines: bool) -> String {
    if lines {
        return format!("{}:{}", record.file, record.line);
    }
    record.file.clone()
}

/// A record and what came of it, on one line.
pub fn json(record: &Record, outcome: &Outcome) -> String {
    let object = Object::new()
        .text("file", &record.file)
        .number("line", record.line)
        .text("state", outcome.state().word());
    match outcome {
        Outcome::Converted {
            xml,
            ambiguous,
            version_mismatch,
        } => object
            .number("number", 0)
            .flag("ambiguous", *ambiguous)
            .flag("version_mismatch", *version_mismatch)
            .text("xml", xml)
            .end(),
        Outcome::Refused(answer) => {
            let object = object
                .number("number", answer.number as usize)
                .text("sentence", sentence(*answer));
            match answer.number {
                2 | 3 | 12 | 13 => object.number("byte", answer.places.byte),
                5..=10 => object.number("character", answer.places.grammar),
                16 => object.number("character", answer.places.fault),
                _ => object,
            }
            .end()
        }
    }
}

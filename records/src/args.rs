//! What is asked for on the command line.

use ixml::Gate;

pub const USAGE: &str = "\
usage: ixml-records COMMAND ...

  convert GRAMMAR RECORD...    the XML of records, a line end after each
      --lines                  each RECORD file has a record on each line
      --format xml|json        json: a line for each record, whatever came of it
      --output DIR             a file for each record that is converted
      --report FILE            an HTML page on the whole batch
      --jobs N                 threads; one a core if not given
      --fail-on-ambiguous      status 3 if a record has two readings
      --quiet                  no progress and no summary
  check GRAMMAR [--table N]    whether a grammar is accepted, its size, and how long a
                               record a main table of N numbers reads
  tidy [--check] GRAMMAR...    grammars in one layout, in place; or whether they have it
  tree [--svg] [--all] GRAMMAR RECORD
                               the chosen reading as an indented tree, or as a picture;
                               --all shows the rules of repetitions and brackets too
  explain GRAMMAR RECORD       of an ambiguous record: two readings side by side
  judge GRAMMAR RECORD FILE    whether the numbers in FILE are a reading of the record,
                               and its XML
  gate GRAMMAR RECORD...       the position of each record, and what a grower's gate says
      --box S N W E | --band S N | --anywhere
      --lat NAME, --lon NAME   the attributes with the position; lat and lon if not given
      --lines                  each RECORD file has a record on each line

  --help, --version

A file named - is standard input; after -- every word is a file. XML and answers
go to standard output, what is wrong to standard error.

Status: 0 all is well; 1 a record has no reading or is refused, a grammar is not
accepted or not tidy, a position is not inside; 2 wrong words, or a file cannot be
read or written; 3 with --fail-on-ambiguous, a record has two readings.
";

#[derive(Clone, Copy, Debug, PartialEq, Eq)]
pub enum Format {
    Xml,
    Json,
}

#[derive(Clone, Debug, PartialEq)]
pub struct Convert {
    pub grammar: String,
    pub records: Vec<String>,
    pub lines: bool,
    pub format: Format,
    pub output: Option<String>,
    pub report: Option<String>,
    pub jobs: Option<usize>,
    pub fail_on_ambiguous: bool,
    pub quiet: bool,
}

#[derive(Clone, Debug, PartialEq)]
pub enum Command {
    Help,
    Version,
    Convert(Convert),
    Check {
        grammar: String,
        table: Option<usize>,
    },
    Tidy {
        check: bool,
        grammars: Vec<String>,
    },
    Tree {
        svg: bool,
        all: bool,
        grammar: String,
        record: String,
    },
    Explain {
        grammar: String,
        record: String,
    },
    Judge {
        grammar: String,
        record: String,
        numbers: String,
    },
    Gate(Positions),
}

/// Records whose positions are judged, and by what.
#[derive(Clone, Debug, PartialEq)]
pub struct Positions {
    pub grammar: String,
    pub records: Vec<String>,
    pub lines: bool,
    pub gate: Gate,
    /// The names of the two attributes.
    pub lat: String,
    pub lon: String,
}

/// The words with their options taken out.
#[derive(Default)]
struct Words {
    files: Vec<String>,
    flags: Vec<&'static str>,
    values: Vec<(&'static str, Vec<String>)>,
}

impl Words {
    /// Options are those named, each with how many words follow it.
    fn new(
        words: impl IntoIterator<Item = String>,
        options: &[(&'static str, usize)],
    ) -> Result<Words, String> {
        let mut found = Words::default();
        let mut words = words.into_iter();
        let mut only_files = false;
        while let Some(word) = words.next() {
            if only_files || !word.starts_with('-') || word == "-" {
                found.files.push(word);
                continue;
            }
            if word == "--" {
                only_files = true;
                continue;
            }
            let option = options.iter().find(|(name, _)| *name == word);
            let &(name, count) = option.ok_or(format!("no such option: {word}"))?;
            if found.has(name) {
                return Err(format!("{name} is given twice"));
            }
            if count == 0 {
                found.flags.push(name);
                continue;
            }
            let values: Vec<String> = words.by_ref().take(count).collect();
            if values.len() < count {
                return Err(format!("{name} needs {count} more"));
            }
            found.values.push((name, values));
        }
        Ok(found)
    }

    fn has(&self, name: &str) -> bool {
        self.flags.contains(&name) || self.values.iter().any(|(given, _)| *given == name)
    }

    fn value(&self, name: &str) -> Option<&str> {
        let values = self.values.iter().find(|(given, _)| *given == name);
        values.map(|(_, values)| values[0].as_str())
    }

    fn number(&self, name: &str) -> Result<Option<usize>, String> {
        let number = |word: &str| word.parse().map_err(|_| format!("{name} needs a number"));
        self.value(name).map(number).transpose()
    }

    /// Exactly so many files.
    fn exactly<const N: usize>(&mut self) -> Result<[String; N], String> {
        let files = std::mem::take(&mut self.files);
        let count = files.len();
        files
            .try_into()
            .map_err(|_| format!("{N} files are to be named, and {count} are"))
    }

    /// A first file and at least one more.
    fn first_and_more(&mut self) -> Result<(String, Vec<String>), String> {
        let mut files = std::mem::take(&mut self.files);
        if files.len() < 2 {
            return Err("a grammar and at least one record are to be named".into());
        }
        let first = files.remove(0);
        Ok((first, files))
    }
}

/// The command that the words name, or what is wrong with them.
pub fn command(words: impl IntoIterator<Item = String>) -> Result<Command, String> {
    let mut words = words.into_iter();
    let name = words.next().ok_or("no command is named")?;
    match name.as_str() {
        "--help" | "-h" | "help" => Ok(Command::Help),
        "--version" | "-V" => Ok(Command::Version),
        "convert" => convert(words),
        "check" => {
            let mut words = Words::new(words, &[("--table", 1)])?;
            let table = words.number("--table")?;
            let [grammar] = words.exactly()?;
            Ok(Command::Check { grammar, table })
        }
        "tidy" => {
            let words = Words::new(words, &[("--check", 0)])?;
            if words.files.is_empty() {
                return Err("at least one grammar is to be named".into());
            }
            let check = words.has("--check");
            let grammars = words.files;
            Ok(Command::Tidy { check, grammars })
        }
        "tree" => {
            let mut words = Words::new(words, &[("--svg", 0), ("--all", 0)])?;
            let (svg, all) = (words.has("--svg"), words.has("--all"));
            let [grammar, record] = words.exactly()?;
            Ok(Command::Tree {
                svg,
                all,
                grammar,
                record,
            })
        }
        "explain" => {
            let [grammar, record] = Words::new(words, &[])?.exactly()?;
            Ok(Command::Explain { grammar, record })
        }
        "judge" => {
            let [grammar, record, numbers] = Words::new(words, &[])?.exactly()?;
            Ok(Command::Judge {
                grammar,
                record,
                numbers,
            })
        }
        "gate" => gate(words),
        _ => Err(format!("no such command: {name}")),
    }
}

fn convert(words: impl Iterator<Item = String>) -> Result<Command, String> {
    let options = [
        ("--lines", 0),
        ("--format", 1),
        ("--output", 1),
        ("--report", 1),
        ("--jobs", 1),
        ("--fail-on-ambiguous", 0),
        ("--quiet", 0),
    ];
    let mut words = Words::new(words, &options)?;
    let format = match words.value("--format") {
        None | Some("xml") => Format::Xml,
        Some("json") => Format::Json,
        Some(other) => return Err(format!("no such format: {other}")),
    };
    let jobs = words.number("--jobs")?;
    if jobs == Some(0) {
        return Err("--jobs needs a number from 1 on".into());
    }
    let (grammar, records) = words.first_and_more()?;
    Ok(Command::Convert(Convert {
        grammar,
        records,
        lines: words.has("--lines"),
        format,
        output: words.value("--output").map(String::from),
        report: words.value("--report").map(String::from),
        jobs,
        fail_on_ambiguous: words.has("--fail-on-ambiguous"),
        quiet: words.has("--quiet"),
    }))
}

fn gate(words: impl Iterator<Item = String>) -> Result<Command, String> {
    let options = [
        ("--lines", 0),
        ("--box", 4),
        ("--band", 2),
        ("--anywhere", 0),
        ("--lat", 1),
        ("--lon", 1),
    ];
    let mut words = Words::new(words, &options)?;
    let limits = |name: &str| -> Result<Option<Vec<f64>>, String> {
        let given = words.values.iter().find(|(given, _)| *given == name);
        let limit = |word: &String| word.parse::<f64>().map_err(|_| format!("no limit: {word}"));
        let limits = given.map(|(_, values)| values.iter().map(limit).collect());
        limits.transpose()
    };
    let gate = match (limits("--box")?, limits("--band")?, words.has("--anywhere")) {
        (Some(limits), None, false) => Gate::Box {
            south: limits[0],
            north: limits[1],
            west: limits[2],
            east: limits[3],
        },
        (None, Some(limits), false) => Gate::Band {
            south: limits[0],
            north: limits[1],
        },
        (None, None, true) => Gate::Anywhere,
        _ => return Err("one of --box, --band and --anywhere is to be given".into()),
    };
    let name = |option: &str, usual: &str| words.value(option).unwrap_or(usual).to_string();
    let (lat, lon) = (name("--lat", "lat"), name("--lon", "lon"));
    let lines = words.has("--lines");
    let (grammar, records) = words.first_and_more()?;
    Ok(Command::Gate(Positions {
        grammar,
        records,
        lines,
        gate,
        lat,
        lon,
    }))
}

#[cfg(test)]
mod tests {
    use super::*;

    fn of(line: &str) -> Result<Command, String> {
        command(line.split_whitespace().map(String::from))
    }

    #[test]
    fn commands() {
        assert_eq!(of("--help"), Ok(Command::Help));
        let Ok(Command::Convert(convert)) = of("convert --lines g --jobs 3 - -- -r --quiet") else {
            panic!("a command");
        };
        assert_eq!(convert.records, ["-", "-r", "--quiet"]);
        assert!(convert.lines && !convert.quiet);
        assert_eq!(convert.jobs, Some(3));
        let gate = of("gate g r --box 44 46.5 -11 13");
        assert!(
            matches!(gate, Ok(Command::Gate(Positions { gate: Gate::Box { west, .. }, .. })) if west == -11.0)
        );
    }

    #[test]
    fn what_is_wrong() {
        for line in [
            "",
            "conver g r",
            "convert g",
            "convert g r --jobs",
            "convert g r --jobs 0",
            "convert g r --jobs x",
            "convert g r --format svg",
            "convert g r --lines --lines",
            "check",
            "check g h",
            "tree g",
            "gate g r",
            "gate g r --band 1",
            "gate g r --band 1 x",
            "gate g r --anywhere --band 1 2",
            "tidy --check",
            "judge g r",
        ] {
            assert!(of(line).is_err(), "{line}");
        }
    }
}

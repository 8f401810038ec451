//! Tidies grammar files in place, or sees whether they are tidy.
//!
//! `tidy FILE...` gives each file the one layout, which has no comments;
//! `tidy --check FILE...` names each file that has another one and writes
//! nothing. The exit code is 0 if all files are tidy in the end, 1 if one is not
//! or is no grammar, 2 if one cannot be read or written.

use std::path::Path;
use std::process::ExitCode;
use std::{env, fs};

const USAGE: &str = "usage: tidy [--check] FILE...";

#[derive(Clone, Copy, PartialEq, Eq, PartialOrd, Ord)]
enum Outcome {
    Tidy,
    NotTidy,
    Failed,
}

fn main() -> ExitCode {
    let mut names: Vec<_> = env::args_os().skip(1).collect();
    let check = names.first().is_some_and(|name| name == "--check");
    if check {
        names.remove(0);
    }
    if names.is_empty() {
        eprintln!("{USAGE}");
        return ExitCode::from(2);
    }
    let outcomes = names.iter().map(|name| tidy(Path::new(name), check));
    ExitCode::from(outcomes.max().unwrap_or(Outcome::Tidy) as u8)
}

/// What comes of a file; what went wrong is said on standard error.
fn tidy(path: &Path, check: bool) -> Outcome {
    let say = |complaint: &dyn std::fmt::Display| eprintln!("{}: {complaint}", path.display());
    let grammar = match fs::read(path) {
        Ok(grammar) => grammar,
        Err(error) => {
            say(&error);
            return Outcome::Failed;
        }
    };
    let text = match ixml::tidy_text(&grammar) {
        Ok(text) => text,
        Err(refusal) => {
            say(&refusal.shown_in(&grammar));
            return Outcome::NotTidy;
        }
    };
    if grammar == text.as_bytes() {
        return Outcome::Tidy;
    }
    if check {
        say(&"not tidy");
        return Outcome::NotTidy;
    }
    match ixml::files::replace(path, &text) {
        Ok(()) => Outcome::Tidy,
        Err(error) => {
            say(&error);
            Outcome::Failed
        }
    }
}

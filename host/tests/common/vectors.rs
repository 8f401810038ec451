//! The shared test vectors.

use super::Job;

/// A line of `tests/vectors` for a call of the library.
pub struct Vector {
    pub job: Job,
    /// What the tool that runs calls reads.
    pub input: String,
    /// What it must write.
    pub output: String,
}

/// A line of `tests/vectors` for the program.
pub struct Run {
    pub job: Job,
    /// What the program must write.
    pub output: Vec<u8>,
}

/// The lines of all files for a call, which is their first field, as fields.
fn lines(call: &str) -> Vec<Vec<String>> {
    let directory = format!("{}/../tests/vectors", env!("CARGO_MANIFEST_DIR"));
    let files = std::fs::read_dir(&directory).expect(&directory);
    let mut files: Vec<_> = files.map(|file| file.expect("a file").path()).collect();
    files.retain(|file| file.extension().is_some_and(|extension| extension == "tsv"));
    files.sort();
    let mut lines = Vec::new();
    for file in files {
        let text = std::fs::read_to_string(&file).expect("a text");
        let fields = text
            .lines()
            .map(|line| line.split('\t').map(str::to_string));
        lines.extend(fields.map(Iterator::collect::<Vec<_>>));
    }
    lines.retain(|fields| fields[0] == call);
    lines
}

/// The vectors of the category call: a number, and the name or `-`.
pub fn categories() -> Vec<(u32, String)> {
    let category = |fields: Vec<String>| {
        assert_eq!(fields.len(), 3, "{fields:?}");
        (fields[1].parse().expect("a number"), fields[2].clone())
    };
    lines("category").into_iter().map(category).collect()
}

/// The vectors of gates, or of number texts: what the tool that runs calls reads,
/// and what it must write.
pub fn lines_of(call: &str, given: usize) -> Vec<(String, String)> {
    let line = |fields: Vec<String>| (fields[..given].join("\t"), fields[given..].join("\t"));
    lines(call).into_iter().map(line).collect()
}

/// The vectors of the program.
pub fn runs() -> Vec<Run> {
    let run = |fields: Vec<String>| {
        assert_eq!(fields.len(), 4, "{fields:?}");
        Run {
            job: Job::new(bytes(&fields[1]), bytes(&fields[2])),
            output: bytes(&fields[3]),
        }
    };
    lines("program").into_iter().map(run).collect()
}

/// The vectors of a call with a grammar and a record.
pub fn of(call: &str) -> Vec<Vector> {
    let vector = |fields: Vec<String>| {
        assert_eq!(fields.len(), 14, "{fields:?}");
        Vector {
            job: Job::new(bytes(&fields[1]), bytes(&fields[2])),
            input: fields[..6].join("\t"),
            output: fields[6..].join("\t"),
        }
    };
    lines(call).into_iter().map(vector).collect()
}

pub fn bytes(hex: &str) -> Vec<u8> {
    if hex == "-" {
        return Vec::new();
    }
    let digits = hex.as_bytes().chunks(2);
    let pairs = digits.map(|pair| std::str::from_utf8(pair).expect("hex digits"));
    pairs
        .map(|pair| u8::from_str_radix(pair, 16).expect("hex digits"))
        .collect()
}

//! The program `./ixml`, run on files: all shared test vectors, and what else
//! may be named as a file. `IXML_PROGRAM` may name another program to test.

mod common;

use std::ffi::{OsStr, OsString};
use std::fs::{self, File};
use std::os::unix::ffi::OsStrExt;
use std::os::unix::fs::symlink;
use std::path::{Path, PathBuf};
use std::process::{Command, Output};
use std::sync::atomic::{AtomicUsize, Ordering};
use std::sync::OnceLock;
use std::thread;
use std::time::{Duration, Instant};

use common::vectors;
use ixml_yardstick::program as yardstick;

/// Enough that a start of the program is never too slow, and too little to
/// read a gigabyte more than once.
const SOON: Duration = Duration::from_secs(5);

/// The program, built.
fn program() -> &'static Path {
    static BUILT: OnceLock<PathBuf> = OnceLock::new();
    BUILT.get_or_init(|| {
        let own = Path::new(env!("CARGO_MANIFEST_DIR")).join("../ixml");
        let program = std::env::var_os("IXML_PROGRAM").map_or(own, PathBuf::from);
        let program = program.canonicalize().expect("the program");
        let files = ["/dev/null", "/dev/null"];
        let output = Command::new(&program).args(files).output();
        let output = output.expect("the program runs");
        let complaints = String::from_utf8_lossy(&output.stderr);
        assert_eq!(output.stdout, b"refused 4\n", "{complaints}");
        program
    })
}

/// An empty directory for the files of a test.
fn directory(name: &str) -> PathBuf {
    let directory = Path::new(env!("CARGO_TARGET_TMPDIR")).join(name);
    let _ = fs::remove_dir_all(&directory);
    fs::create_dir_all(&directory).expect("a directory");
    directory
}

fn run(directory: &Path, arguments: &[&str]) -> Output {
    let mut command = Command::new(program());
    command.args(arguments).current_dir(directory);
    command.output().expect("the program runs")
}

/// Runs the program on two files. Its status follows from what it writes, and so
/// does whether it says more on standard error.
fn writes(directory: &Path, grammar: &str, record: &str) -> Vec<u8> {
    let output = run(directory, &[grammar, record]);
    let said = String::from_utf8_lossy(&output.stderr);
    let written = String::from_utf8_lossy(&output.stdout);
    let tag = written.split('>').next().unwrap_or_default();
    let (status, begins) = if written == "unreadable\n" {
        (2, "ixml: ".to_string())
    } else if let Some(number) = written.strip_prefix("refused ") {
        (1, format!("ixml: refused {}: ", number.trim_end()))
    } else if written.starts_with("<fail ") {
        (1, "ixml: refused 16: ".to_string())
    } else if tag.contains(" ixml:state='ambiguous") {
        (0, "ixml: ambiguous: ".to_string())
    } else {
        assert_eq!(said, "", "{grammar:?} {record:?}");
        (0, String::new())
    };
    assert!(said.starts_with(&begins), "{grammar:?} {record:?} {said}");
    assert_eq!(output.status.code(), Some(status), "{grammar:?} {record:?}");
    output.stdout
}

/// What the proved program writes, without the script around it. Elsewhere than on
/// the processor that it is for, and where another program is tested, the script's.
fn bare(directory: &Path, grammar: &str, record: &str) -> Vec<u8> {
    let proved = program().with_file_name("target/bin/program");
    if !cfg!(target_arch = "x86_64") || !proved.exists() {
        return writes(directory, grammar, record);
    }
    let mut command = Command::new(proved);
    let output = command
        .args([grammar, record])
        .current_dir(directory)
        .output();
    let output = output.expect("the program runs");
    assert_eq!(output.status.code(), Some(0), "{grammar:?} {record:?}");
    assert_eq!(output.stderr, b"", "{grammar:?} {record:?}");
    output.stdout
}

/// All through the proved program, some through the script as well.
#[test]
fn all_vectors() {
    let runs = vectors::runs();
    assert!(runs.len() > 2000);
    let (next, taken) = (AtomicUsize::new(0), AtomicUsize::new(0));
    let work = |worker: usize| {
        let directory = directory(&format!("vectors-{worker}"));
        while let Some(run) = runs.get(next.fetch_add(1, Ordering::Relaxed)) {
            fs::write(directory.join("grammar"), &run.job.grammar).expect("written");
            fs::write(directory.join("record"), &run.job.record).expect("written");
            let mut outputs = vec![bare(&directory, "grammar", "record")];
            if taken.fetch_add(1, Ordering::Relaxed) % 20 == 0 {
                outputs.push(writes(&directory, "grammar", "record"));
            }
            for output in outputs {
                assert_eq!(
                    output.escape_ascii().to_string(),
                    run.output.escape_ascii().to_string(),
                    "{:?}",
                    run.job
                );
            }
        }
    };
    let workers = thread::available_parallelism().map_or(1, usize::from);
    thread::scope(|scope| {
        for worker in 0..workers {
            scope.spawn(move || work(worker));
        }
    });
}

/// The grammars and records of demo/ give what the README shows.
#[test]
fn demos() {
    let demo = Path::new(env!("CARGO_MANIFEST_DIR")).join("../demo");
    let shown = fs::read_to_string(demo.join("expected.txt")).expect("what the demos write");
    let readme = fs::read_to_string(demo.join("../README.md")).expect("the README");
    let mut lines = shown.lines();
    let mut count = 0;
    while let Some(title) = lines.next() {
        let files = title.strip_prefix("== ").expect("a title");
        let (grammar, record) = files.split_once(", ").expect("two files");
        let expected = lines.next().expect("a line of XML");
        let output = writes(&demo, grammar, record);
        assert_eq!(
            String::from_utf8_lossy(&output),
            format!("{expected}\n"),
            "{title}"
        );
        assert!(readme.contains(expected), "the README shows {title}");
        count += 1;
    }
    assert_eq!(count, 6);
}

/// Every pair of some files, of which some cannot be read.
#[test]
fn all_pairs() {
    let directory = directory("pairs");
    let long = |length: usize| [b"a: \"x\".".to_vec(), vec![b' '; length - 7]].concat();
    let files = [
        ("grammar", Some(b"a: ~[]*.".to_vec())),
        ("a record", Some(b"x<\n".to_vec())),
        ("empty", Some(Vec::new())),
        ("4096", Some(long(4096))),
        ("4097", Some(long(4097))),
        ("1000000", Some(long(1_000_000))),
        ("folder", None),
        ("missing", None),
        ("folder/missing", None),
        ("", None),
    ];
    fs::create_dir(directory.join("folder")).expect("a directory");
    for (name, content) in &files {
        if let Some(content) = content {
            fs::write(directory.join(name), content).expect("written");
        }
    }
    for (grammar, first) in &files {
        for (record, second) in &files {
            let expected = yardstick(first.as_deref(), second.as_deref());
            let output = writes(&directory, grammar, record);
            assert_eq!(output, expected, "{grammar:?} {record:?}");
        }
    }
}

#[test]
fn a_long_file_is_not_read_whole() {
    let directory = directory("long");
    fs::write(directory.join("grammar"), "a: \"x\".").expect("written");
    let gigabyte = File::create(directory.join("gigabyte")).expect("a file");
    gigabyte.set_len(1 << 30).expect("a hole");
    program();
    let started = Instant::now();
    assert_eq!(writes(&directory, "gigabyte", "grammar"), b"refused 1\n");
    assert_eq!(writes(&directory, "grammar", "gigabyte"), b"refused 14\n");
    assert_eq!(writes(&directory, "gigabyte", "gigabyte"), b"refused 14\n");
    // Files without an end.
    assert_eq!(writes(&directory, "/dev/zero", "grammar"), b"refused 1\n");
    assert_eq!(writes(&directory, "grammar", "/dev/zero"), b"refused 14\n");
    assert!(started.elapsed() < SOON);
}

#[test]
fn arguments_that_are_missing_or_too_many() {
    let directory = directory("arguments");
    fs::write(directory.join("grammar"), "a: \"x\".").expect("written");
    let wrong: [(&[&str], &str); 3] = [
        (&[], "unreadable\n"),
        (&["grammar"], "unreadable\n"),
        (&["grammar", "grammar", "grammar"], ""),
    ];
    for (arguments, written) in wrong {
        let output = run(&directory, arguments);
        assert_eq!(output.status.code(), Some(2), "{arguments:?}");
        assert_eq!(output.stdout, written.as_bytes(), "{arguments:?}");
        assert_eq!(output.stderr, b"usage: ./ixml GRAMMAR RECORD\n");
    }
}

#[test]
fn by_a_link_and_with_odd_names() {
    let directory = directory("names");
    fs::write(directory.join("-g *"), "a: \"x\".").expect("written");
    fs::write(directory.join("r\n'$x"), "x").expect("written");
    symlink(program(), directory.join("link")).expect("a link");
    let names = [
        OsString::from("--"),
        OsString::from("-g *"),
        OsString::from("r\n'$x"),
    ];
    let mut command = Command::new(directory.join("link"));
    let output = command.args(names).current_dir(&directory).output();
    assert_eq!(output.expect("the program runs").stdout, b"<a>x</a>\n");
}

/// The proved program takes names in UTF-8; the script hands it other files opened.
#[test]
fn with_names_that_are_no_text() {
    let directory = directory("bytes");
    let [grammar, record, folder] =
        [b"g\xe4", b"r\xff", b"f\xfe"].map(|name| OsStr::from_bytes(name));
    fs::write(directory.join(grammar), "a: \"x\".").expect("written");
    fs::write(directory.join(record), "x").expect("written");
    fs::create_dir(directory.join(folder)).expect("a directory");
    let missing = OsStr::from_bytes(b"m\xe4");
    for (names, written, status) in [
        ([grammar, record], "<a>x</a>\n", 0),
        ([grammar, folder], "unreadable\n", 2),
        ([missing, record], "unreadable\n", 2),
    ] {
        let mut command = Command::new(program());
        let output = command.args(names).current_dir(&directory).output();
        let output = output.expect("the program runs");
        assert_eq!(output.stdout, written.as_bytes(), "{names:?}");
        assert_eq!(output.status.code(), Some(status), "{names:?}");
    }
}

/// Files that come in pieces, so that a read gives less than is asked for.
#[test]
fn from_pipes() {
    let pieces =
        r#""$0" <(printf 'a: '; sleep 0.2; printf '"xy".') <(printf x; sleep 0.2; printf y)"#;
    let output = Command::new("bash")
        .args(["-c", pieces])
        .arg(program())
        .output();
    assert_eq!(output.expect("bash runs").stdout, b"<a>xy</a>\n");
}

/// The program does with a stack of 1 MB, on a record as long as its table
/// allows.
#[test]
fn a_small_stack_is_enough() {
    let directory = directory("stack");
    let record = "x".repeat(72);
    fs::write(directory.join("grammar"), "a: ~[]*.").expect("a file");
    fs::write(directory.join("record"), &record).expect("a file");
    let output = Command::new("sh")
        .args(["-c", "ulimit -s 1024 && exec \"$0\" grammar record"])
        .arg(program())
        .current_dir(&directory)
        .output()
        .expect("a shell");
    assert_eq!(output.status.code(), Some(0));
    assert_eq!(output.stdout, format!("<a>{record}</a>\n").as_bytes());
}

/// What a number means is said once, in include/refusals.tsv.
#[test]
fn sentences() {
    let table = Path::new(env!("CARGO_MANIFEST_DIR")).join("../include/refusals.tsv");
    let table = fs::read_to_string(table).expect("the sentences");
    let mut numbers = Vec::new();
    for line in table.lines() {
        let (number, sentence) = line.split_once('\t').expect("two columns");
        let number: u32 = number.parse().expect("a number");
        numbers.push(number);
        let own = match number {
            30..=32 => continue,
            _ => ixml::Error::try_from(ixml::Answer {
                number,
                ..ixml::Answer::default()
            }),
        };
        let own = own.expect("a refusal");
        assert_eq!(own.sentence(), sentence);
    }
    numbers.sort_unstable();
    numbers.dedup();
    assert_eq!(numbers.len(), table.lines().count());
    for number in 1..=32 {
        assert!(numbers.contains(&number), "{number}");
    }
}

#[test]
fn help_and_version() {
    let directory = directory("help");
    for (word, begins) in [
        ("--help", "usage: ./ixml GRAMMAR RECORD\n"),
        ("--version", "ixml "),
    ] {
        let output = run(&directory, &[word]);
        assert_eq!(output.status.code(), Some(0), "{word}");
        assert!(output.stdout.starts_with(begins.as_bytes()), "{word}");
        assert_eq!(output.stderr, b"", "{word}");
    }
    let output = run(&directory, &["--helf", "x"]);
    assert_eq!(output.status.code(), Some(2));
    assert_eq!(output.stdout, b"");
}

#[test]
fn output_that_cannot_be_written() {
    let directory = directory("full");
    fs::write(directory.join("grammar"), "a: \"x\".").expect("written");
    fs::write(directory.join("record"), "x").expect("written");
    let full = File::options()
        .write(true)
        .open("/dev/full")
        .expect("a full disk");
    let mut command = Command::new(program());
    command
        .args(["grammar", "record"])
        .current_dir(&directory)
        .stdout(full);
    let output = command.output().expect("the program runs");
    assert_eq!(output.status.code(), Some(1));
    assert_eq!(output.stderr, b"ixml: the output could not be written\n");
}

#[test]
fn from_standard_input() {
    let directory = directory("input");
    fs::write(directory.join("grammar"), "a: \"x\".").expect("written");
    let pieces =
        r#"printf x | "$0" grammar -; printf 'a: "y".' | "$0" - <(printf y); printf x | "$0" - -"#;
    let mut command = Command::new("bash");
    command
        .args(["-c", pieces])
        .arg(program())
        .current_dir(&directory);
    let output = command.output().expect("bash runs");
    assert_eq!(output.stdout, b"<a>x</a>\n<a>y</a>\n");
    assert_eq!(output.status.code(), Some(2));
}

/// A record file that ends in a line end, as editors write it.
#[test]
fn a_line_end_that_is_too_much() {
    let directory = directory("line-end");
    fs::write(directory.join("grammar"), "a: \"x\"+.").expect("written");
    for (record, only_line_end) in [("xx\n", true), ("xx\r\n", true), ("xy\n", false)] {
        fs::write(directory.join("record"), record).expect("written");
        let output = run(&directory, &["grammar", "record"]);
        let said = String::from_utf8_lossy(&output.stderr);
        assert_eq!(said.contains("ends in a line end"), only_line_end, "{said}");
    }
    fs::write(directory.join("grammar"), "a: \"x\"+, -#d?, -#a?.").expect("written");
    fs::write(directory.join("record"), "xx\r\n").expect("written");
    assert_eq!(writes(&directory, "grammar", "record"), b"<a>xx</a>\n");
}

/// 15 tells what is needed.
#[test]
fn a_record_that_is_too_long_for_the_program() {
    let directory = directory("room");
    fs::write(directory.join("grammar"), "a: ~[]*.").expect("written");
    fs::write(directory.join("record"), "x".repeat(73)).expect("written");
    let output = run(&directory, &["grammar", "record"]);
    assert_eq!(output.stdout, b"refused 15\n");
    let said = String::from_utf8_lossy(&output.stderr);
    assert!(
        said.contains("73 characters") && said.contains("ixml-records"),
        "{said}"
    );
}

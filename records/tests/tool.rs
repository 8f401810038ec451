//! The tool as its users run it.

use std::fs;
use std::io::Write;
use std::path::{Path, PathBuf};
use std::process::{Command, Output, Stdio};

/// An empty directory for the files of a test.
fn directory(name: &str) -> PathBuf {
    let directory = Path::new(env!("CARGO_TARGET_TMPDIR")).join(name);
    let _ = fs::remove_dir_all(&directory);
    fs::create_dir_all(&directory).expect("a directory");
    directory
}

fn demo(file: &str) -> String {
    format!("{}/../demo/{file}", env!("CARGO_MANIFEST_DIR"))
}

struct Ran {
    status: Option<i32>,
    out: String,
    err: String,
}

fn ran(output: Output) -> Ran {
    let text = |bytes: Vec<u8>| String::from_utf8(bytes).expect("text");
    Ran {
        status: output.status.code(),
        out: text(output.stdout),
        err: text(output.stderr),
    }
}

fn run(directory: &Path, words: &[&str]) -> Ran {
    let mut command = Command::new(env!("CARGO_BIN_EXE_ixml-records"));
    ran(command
        .args(words)
        .current_dir(directory)
        .output()
        .expect("the tool runs"))
}

fn run_on(directory: &Path, words: &[&str], input: &str) -> Ran {
    let mut tool = Command::new(env!("CARGO_BIN_EXE_ixml-records"))
        .args(words)
        .current_dir(directory)
        .stdin(Stdio::piped())
        .stdout(Stdio::piped())
        .stderr(Stdio::piped())
        .spawn()
        .expect("the tool runs");
    let mut stdin = tool.stdin.take().expect("a pipe");
    stdin.write_all(input.as_bytes()).expect("written");
    drop(stdin);
    ran(tool.wait_with_output().expect("output"))
}

#[test]
fn records_on_lines_in_order() {
    let directory = directory("lines");
    let input: String = (0..3000).map(|n| format!("{n} {}\r\n", n % 7)).collect();
    let ran = run_on(
        &directory,
        &["convert", "--lines", &demo("position.ixml"), "-"],
        &input,
    );
    let expected: String = (0..3000)
        .map(|n| format!("<p lat='{n}' lon='{}'/>\n", n % 7))
        .collect();
    assert_eq!(ran.out, expected);
    assert_eq!(ran.status, Some(0));
    assert!(
        ran.err.starts_with("3,000 records: 3,000 converted"),
        "{}",
        ran.err
    );
}

#[test]
fn a_diagnosis_as_compilers_give_it() {
    let directory = directory("diagnosis");
    let grammar = demo("position.ixml");
    let ran = run_on(
        &directory,
        &["convert", "--quiet", "--lines", &grammar, "-"],
        "45 12\n4x 1\n7\n",
    );
    assert_eq!(ran.status, Some(1));
    assert_eq!(ran.out, "<p lat='45' lon='12'/>\n");
    let expected = "\
-:2:2: refused 16: the grammar does not derive the record
    4x 1
     ^
    no text that the grammar accepts goes on with the character at the mark
    could follow: \" \", [\"0\"-\"9\"]
-:3:2: refused 16: the grammar does not derive the record
    7
     ^
    the record ends too soon: the grammar accepts texts that go on from here
    could follow: \" \", [\"0\"-\"9\"]
";
    assert_eq!(ran.err, expected);
}

#[test]
fn a_line_end_that_is_too_much() {
    let directory = directory("line-end");
    fs::write(directory.join("r"), "45 12\n").expect("written");
    let ran = run(
        &directory,
        &["convert", "--quiet", &demo("position.ixml"), "r"],
    );
    assert_eq!(ran.status, Some(1));
    assert!(ran.err.contains("r:1:6: refused 16"), "{}", ran.err);
    assert!(ran.err.contains("only the line end"), "{}", ran.err);
}

#[test]
fn places_in_a_grammar() {
    let directory = directory("grammar");
    fs::write(
        directory.join("g"),
        "\u{FEFF}a: b,\n  ['z'-'a'].\nb: 'x'.\n",
    )
    .expect("written");
    let ran = run(&directory, &["check", "g"]);
    assert_eq!(ran.status, Some(1));
    assert_eq!(
        ran.err,
        "g:2:4: refused 9: the grammar has a range that runs backwards\n      ['z'-'a'].\n       ^\n"
    );
    fs::write(directory.join("g"), b"a: '\xFF'.").expect("written");
    let ran = run(&directory, &["check", "g"]);
    assert!(ran.err.starts_with("g:1:5: refused 2: "), "{}", ran.err);
    fs::write(directory.join("g"), "a: ").expect("written");
    let ran = run(&directory, &["check", "g"]);
    assert!(ran.err.starts_with("g: refused 4: "), "{}", ran.err);
}

#[test]
fn files_and_statuses() {
    let directory = directory("files");
    fs::create_dir(directory.join("in")).expect("a directory");
    for (file, text) in [("in/a.txt", "45 12"), ("in/b.txt", "1 2"), ("c.txt", "x")] {
        fs::write(directory.join(file), text).expect("written");
    }
    let grammar = demo("position.ixml");
    let ran = run(
        &directory,
        &[
            "convert", &grammar, "in/a.txt", "in/b.txt", "--output", "out", "--quiet",
        ],
    );
    assert_eq!(
        (ran.status, ran.out.as_str(), ran.err.as_str()),
        (Some(0), "", "")
    );
    let xml = fs::read_to_string(directory.join("out/b.xml")).expect("a file");
    assert_eq!(xml, "<p lat='1' lon='2'/>\n");
    assert_eq!(
        fs::read_dir(directory.join("out"))
            .expect("a directory")
            .count(),
        2
    );
    let status = |words: &[&str]| run(&directory, words).status;
    assert_eq!(status(&["convert", &grammar, "in/a.txt", "c.txt"]), Some(1));
    assert_eq!(
        status(&["convert", &grammar, "in/a.txt", "missing"]),
        Some(2)
    );
    assert_eq!(status(&["convert", "missing", "in/a.txt"]), Some(2));
    assert_eq!(
        status(&["convert", &grammar, "in/a.txt", "in/a.txt", "--output", "out"]),
        Some(2)
    );
    let two = demo("position-two-ways.ixml");
    assert_eq!(status(&["convert", &two, "in/a.txt"]), Some(0));
    assert_eq!(
        status(&["convert", &two, "in/a.txt", "--fail-on-ambiguous"]),
        Some(3)
    );
    assert_eq!(
        status(&["convert", &two, "in/a.txt", "c.txt", "--fail-on-ambiguous"]),
        Some(3)
    );
    assert_eq!(status(&["nothing"]), Some(2));
    assert_eq!(status(&["--help"]), Some(0));
    assert_eq!(status(&["--version"]), Some(0));
}

#[test]
fn json_lines() {
    let directory = directory("json");
    let words = [
        "convert",
        "--format",
        "json",
        "--lines",
        "--quiet",
        &demo("position.ixml"),
        "-",
    ];
    let ran = run_on(&directory, &words, "4 5\nx\n");
    let expected = concat!(
        r#"{"file":"-","line":1,"state":"converted","number":0,"ambiguous":false,"version_mismatch":false,"xml":"<p lat='4' lon='5'/>"}"#,
        "\n",
        r#"{"file":"-","line":2,"state":"no reading","number":16,"sentence":"the grammar does not derive the record","character":0}"#,
        "\n"
    );
    assert_eq!(ran.out, expected);
    assert_eq!((ran.status, ran.err.as_str()), (Some(1), ""));
}

#[test]
fn sizes() {
    let directory = directory("sizes");
    fs::write(directory.join("g"), "a: \"x\"*.").expect("written");
    let ran = run(&directory, &["check", "g", "--table", "35"]);
    let expected =
        "g: accepted, of size 6\na main table of 35 numbers reads records of up to 1 characters\n";
    assert_eq!((ran.out.as_str(), ran.status), (expected, Some(0)));
    let ran = run(&directory, &["check", "g", "--table", "5"]);
    assert!(
        ran.out.contains("is too short for any record"),
        "{}",
        ran.out
    );
}

#[test]
fn tidied() {
    let directory = directory("tidy");
    fs::write(directory.join("g"), "a={x}'b'.").expect("written");
    assert_eq!(run(&directory, &["tidy", "--check", "g"]).status, Some(1));
    assert_eq!(run(&directory, &["tidy", "g"]).status, Some(0));
    assert_eq!(run(&directory, &["tidy", "--check", "g"]).status, Some(0));
    assert_eq!(
        fs::read_to_string(directory.join("g")).expect("a file"),
        "a: \"b\".\n"
    );
    let ran = run_on(&directory, &["tidy", "-"], "a={x}'b'.");
    assert_eq!(ran.out, "a: \"b\".\n");
}

#[test]
fn trees() {
    let directory = directory("trees");
    let (grammar, record) = (demo("logger.ixml"), demo("logger.txt"));
    let ran = run(&directory, &["tree", &grammar, &record]);
    assert!(
        ran.out
            .starts_with("record\n  @probe\n    -d\n      \"1\"\n"),
        "{}",
        ran.out
    );
    let ran = run(&directory, &["tree", "--svg", "--all", &grammar, &record]);
    assert!(ran.out.starts_with("<svg ") && ran.out.ends_with("</svg>\n"));
    assert_eq!(ran.status, Some(0));
    assert_eq!(
        run(&directory, &["tree", &grammar, &grammar]).status,
        Some(1)
    );
}

/// The story of the exchanged coordinates, from records to a grower.
#[test]
fn positions() {
    let directory = directory("positions");
    let see = |grammar: &str, record: &str| {
        let words = [
            "gate",
            &demo(grammar),
            &demo(record),
            "--box",
            "44",
            "46.5",
            "11",
            "13",
        ];
        let ran = run(&directory, &words);
        let (_, told) = ran.out.split_once(":1: ").expect("a line");
        (ran.status, told.trim_end().to_string())
    };
    let (status, told) = see("field.ixml", "field.txt");
    assert_eq!(
        (status, told.as_str()),
        (Some(0), "irrigate: 45.4375, 12.335 is inside")
    );
    for (grammar, record, word) in [
        ("field.ixml", "field-exchanged.txt", "exchanged"),
        ("field-two-ways.ixml", "field.txt", "more than one way"),
        ("field.ixml", "field-elsewhere.txt", "outside"),
        ("field.ixml", "field-beyond.txt", "refused 32"),
    ] {
        let (status, told) = see(grammar, record);
        assert_eq!(status, Some(1), "{record}");
        assert!(
            told.starts_with("do not irrigate: ") && told.contains(word),
            "{told}"
        );
    }
}

/// Memory does not grow with the count of records.
#[test]
fn memory_stays_flat() {
    let directory = directory("flat");
    let records: String = (0..100_000).map(|n| format!("{n} 1\n")).collect();
    fs::write(directory.join("many"), records).expect("written");
    let script = "ulimit -v 1500000; \"$0\" convert --quiet --lines \"$1\" many | wc -l";
    let output = Command::new("bash")
        .args([
            "-c",
            script,
            env!("CARGO_BIN_EXE_ixml-records"),
            &demo("position.ixml"),
        ])
        .current_dir(&directory)
        .output()
        .expect("bash runs");
    assert_eq!(String::from_utf8_lossy(&output.stdout).trim(), "100000");
}

#[test]
fn two_readings_side_by_side() {
    let directory = directory("explain");
    fs::write(directory.join("g"), "a: b; c. b: 'x'. c: -'x'.").expect("written");
    fs::write(directory.join("r"), "x").expect("written");
    let ran = run(&directory, &["explain", "g", "r"]);
    let expected = "r: ambiguous. The two part after a at b and c.\n\n\
[chosen]     [another]\na            a\n  b       |    c\n    \"x\"   |      -\"x\"\n\n\
chosen: <a><b>x</b></a>\nanother: <a><c/></a>\n";
    assert_eq!((ran.out.as_str(), ran.status), (expected, Some(0)));
    let words = ["explain", &demo("position.ixml"), &demo("position.txt")];
    assert!(run(&directory, &words)
        .out
        .ends_with("one reading, and no other\n"));
}

#[test]
fn lists_that_others_made() {
    let directory = directory("judge");
    fs::write(directory.join("g"), "a: b; c. b: 'x'. c: 'x'.").expect("written");
    fs::write(directory.join("r"), "x").expect("written");
    for (list, status, out, word) in [
        ("1, 0\n", 0, "<a><c>x</c></a>\n", ""),
        ("0 0", 0, "<a><b>x</b></a>\n", ""),
        ("1 1", 1, "", "refused 25"),
        ("", 1, "", "refused 25"),
        ("1 x", 2, "", "no list"),
        ("4294967296", 2, "", "no list"),
    ] {
        fs::write(directory.join("l"), list).expect("written");
        let ran = run(&directory, &["judge", "g", "r", "l"]);
        assert_eq!(
            (ran.status, ran.out.as_str()),
            (Some(status), out),
            "{list}"
        );
        assert!(ran.err.contains(word), "{list} {}", ran.err);
    }
}

/// The page has no address to fetch from, and what it shows is escaped.
#[test]
fn a_report() {
    let directory = directory("report");
    fs::write(directory.join("g"), "a: b; c. b: ~['z']. c: '<'.").expect("written");
    let words = [
        "convert",
        "--quiet",
        "--lines",
        "g",
        "-",
        "--report",
        "page.html",
    ];
    run_on(&directory, &words, "<\n&\nz\n");
    let page = fs::read_to_string(directory.join("page.html")).expect("a page");
    assert!(page.contains("3 records: 1 converted, 1 ambiguous, 1 no reading, 0 refused"));
    assert!(page.contains("<tr class=\"ambiguous\"") && page.contains("<svg "));
    assert!(page.contains("another") && page.contains("&lt;a&gt;&lt;c&gt;&amp;lt;"));
    let fetched = page
        .replace("http://www.w3.org/2000/svg", "")
        .replace("http://invisiblexml.org/NS", "");
    assert!(!fetched.contains("http") && !page.contains("<script"));
}

/// What the README shows is what the tool says of demo/day.txt.
#[test]
fn the_readme_shows_it() {
    let top = Path::new(env!("CARGO_MANIFEST_DIR")).join("..");
    let readme = fs::read_to_string(top.join("README.md")).expect("the README");
    let words = ["convert", "--lines", "demo/day.ixml", "demo/day.txt"];
    let ran = run(&top, &words);
    let (said, summary) = ran.err.trim_end().rsplit_once('\n').expect("lines");
    let shown: String = said.lines().map(|line| format!("    {line}\n")).collect();
    assert!(readme.contains(&shown), "{shown}");
    let (counts, _) = summary.split_once(';').expect("a time");
    assert!(readme.contains(counts), "{counts}");
    assert_eq!(ran.status, Some(1));
}

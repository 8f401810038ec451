//! The program itself: files, arguments and output.

use std::path::{Path, PathBuf};
use std::process::Command;

/// A fresh directory with these files in it.
fn directory(name: &str, files: &[(&str, &[u8])]) -> PathBuf {
    let path = Path::new(env!("CARGO_TARGET_TMPDIR")).join(name);
    std::fs::create_dir_all(&path).unwrap();
    for (file, content) in files {
        std::fs::write(path.join(file), content).unwrap();
    }
    path
}

fn run(directory: &Path, arguments: &[&str]) -> Vec<u8> {
    let program = env!("CARGO_BIN_EXE_ixml-yardstick");
    let output = Command::new(program)
        .args(arguments)
        .current_dir(directory)
        .output()
        .unwrap();
    assert!(output.status.success() && output.stderr.is_empty());
    output.stdout
}

#[test]
fn files_and_arguments() {
    let long = [b'x'; 4097];
    let longer = vec![b'x'; 100_000];
    let directory = directory(
        "files_and_arguments",
        &[
            ("good", b"a: \"x\"."),
            ("bad", b"a: b."),
            ("long", &long),
            ("longer", &longer),
            ("full", &long[1..]),
            ("x", b"x"),
            ("y", b"y"),
            ("empty", b""),
        ],
    );
    let cases: [(&[&str], &str); 13] = [
        (&["good", "x"], "<a>x</a>\n"),
        (
            &["good", "y"],
            "<fail xmlns:ixml='http://invisiblexml.org/NS' ixml:state='failed' place='0'/>\n",
        ),
        (&["bad", "x"], "refused 5\n"),
        (&["bad", "long"], "refused 14\n"),
        (&["bad", "longer"], "refused 14\n"),
        (&["bad", "full"], "refused 5\n"),
        (&["good", "full"], "refused 14\n"),
        (&["longer", "x"], "refused 1\n"),
        (&["empty", "x"], "refused 4\n"),
        (&["missing", "long"], "unreadable\n"),
        (&["good", "."], "unreadable\n"),
        (&["good"], "unreadable\n"),
        (&[], "unreadable\n"),
    ];
    for (arguments, expected) in cases {
        let output = run(&directory, arguments);
        assert_eq!(
            String::from_utf8(output).unwrap(),
            expected,
            "{arguments:?}"
        );
    }
}

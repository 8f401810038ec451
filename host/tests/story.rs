//! The story of demo/grower: from a record to what a grower sees.

#[path = "../examples/grower.rs"]
mod grower;

use std::fs;
use std::path::Path;

use ixml::Gate;

#[test]
fn growers_are_told_what_the_demo_shows() {
    let demo = Path::new(env!("CARGO_MANIFEST_DIR")).join("../demo");
    let shown = fs::read_to_string(demo.join("grower.expected")).expect("what the demo writes");
    let fields = Gate::Box {
        south: 44.0,
        north: 46.5,
        west: 11.0,
        east: 13.0,
    };
    let mut written = String::new();
    for line in shown.lines() {
        let Some(files) = line.strip_prefix("== ") else {
            continue;
        };
        let (grammar, record) = files.split_once(", ").expect("two files");
        let [grammar, record] =
            [grammar, record].map(|file| fs::read(demo.join(file)).expect(file));
        written.push_str(&format!("{line}\n"));
        for line in grower::told(&grammar, &record, fields) {
            written.push_str(&format!("{line}\n"));
        }
    }
    assert_eq!(written, shown);
}

/// The README tells one part of the story.
#[test]
fn the_readme_shows_an_ambiguous_record() {
    let top = Path::new(env!("CARGO_MANIFEST_DIR")).join("..");
    let shown = fs::read_to_string(top.join("demo/grower.expected")).expect("a text");
    let readme = fs::read_to_string(top.join("README.md")).expect("the README");
    let parts = shown
        .split("== ")
        .find(|part| part.starts_with("field-two-ways.ixml"));
    for line in parts.expect("an ambiguous record").lines() {
        assert!(readme.contains(line), "{line}");
    }
}

#[test]
fn a_record_that_is_not_read_has_no_position() {
    let grammar = b"p: @lat, -' ', @lon. lat: d+. lon: d+. -d: ['0'-'9'].";
    let told = grower::told(grammar, b"45,4 12", Gate::Anywhere);
    assert_eq!(told.len(), 2);
    assert!(told[0].starts_with("reader: refused 16"), "{told:?}");
    assert_eq!(told[1], "grower: do not irrigate: the record is not read");
    let told = grower::told(b"a: 'x'.", b"x", Gate::Anywhere);
    assert_eq!(
        told[1],
        "grower: do not irrigate: the record has no position"
    );
}

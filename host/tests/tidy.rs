//! Tidying against the yardstick, and the command that tidies files.

mod common;

use std::fs;
use std::path::PathBuf;
use std::process::{Command, Output};

use common::lent::Lent;
use common::{grammars, on_small_stack, yardstick, Tally};
use ixml::limits::GRAMMAR_BYTES;
use ixml::Answer;
use ixml_yardstick::gen::Random;

const GRAMMARS: usize = 50_000;

/// Tidies a grammar into a buffer of so many bytes, as the yardstick does, and
/// sees that no other byte is touched.
fn agree(grammar: &[u8], room: usize) -> (Answer, Vec<u8>) {
    let mut expected = vec![0; room];
    let answer = yardstick(ixml_yardstick::tidy(grammar, &mut expected));
    let mut result = Lent::new(room, 13);
    let text = String::from_utf8_lossy(grammar);
    assert_eq!(ixml::tidy(grammar, result.lend()), answer, "{text:?}");
    assert!(!result.touched_behind(answer.length), "{text:?}");
    let cells = result.cells()[..answer.length].to_vec();
    assert_eq!(cells, expected[..answer.length], "{text:?}");
    (answer, cells)
}

/// In ample room, in just enough and in one byte less; and what comes of it.
fn compare(grammar: &[u8]) -> Answer {
    let (answer, text) = agree(grammar, GRAMMAR_BYTES);
    if answer.number != 0 {
        assert_eq!(agree(grammar, 0).0, answer);
        return answer;
    }
    assert_eq!(agree(grammar, text.len()), (answer, text.clone()));
    assert_eq!(agree(grammar, text.len() - 1).0.number, 23);
    assert_eq!(agree(&text, GRAMMAR_BYTES), (answer, text.clone()));
    assert_eq!(ixml::check(&text), ixml::check(grammar));
    answer
}

#[test]
fn made_up_grammars_agree_with_the_yardstick() {
    on_small_stack(|| {
        let mut random = Random::new(13);
        let mut tally = Tally::default();
        for _ in 0..GRAMMARS {
            tally.add(compare(&grammars::made_up(&mut random)));
        }
        tally.assert_each(0..=11, 20);
    });
}

#[test]
fn awkward_grammars_agree_with_the_yardstick() {
    on_small_stack(|| {
        for (_, grammar) in grammars::awkward() {
            compare(grammar.as_bytes());
        }
    });
}

/// Two names grow until the layout's spaces take the text over 4,096 bytes: 28
/// is then told in every buffer.
#[test]
fn long_texts() {
    on_small_stack(|| {
        let terms = vec!["b"; 200].join(",");
        let numbers = (1735..1745).map(|length| {
            let name = "c".repeat(length);
            let grammar = format!("a:{terms}. b:{name}. {name}:'x'.");
            let answer = compare(grammar.as_bytes());
            let short = agree(grammar.as_bytes(), 3).0;
            assert_eq!(short.number, answer.number.max(23));
            answer.number
        });
        let numbers: Vec<u32> = numbers.collect();
        assert_eq!(numbers, [0, 0, 0, 0, 0, 0, 28, 28, 28, 28]);
    });
}

fn directory(name: &str) -> PathBuf {
    let path = PathBuf::from(env!("CARGO_TARGET_TMPDIR")).join(name);
    // What an earlier run left.
    let _ = fs::remove_dir_all(&path);
    fs::create_dir_all(&path).expect("a directory for files");
    path
}

fn command(words: &[&str]) -> Output {
    let mut command = Command::new(env!("CARGO_BIN_EXE_tidy"));
    command.args(words).output().expect("the command runs")
}

#[test]
fn the_command_tidies_files() {
    let folder = directory("tidy");
    let file = |name: &str, text: &str| {
        let path = folder.join(name);
        fs::write(&path, text).expect("a file");
        path.to_str().expect("a name").to_string()
    };
    let loose = file("loose", "a={x}'b'|.");
    let tidy = file("tidy", "a: .\n");
    let wrong = file("wrong", "a: b.");
    let missing = folder.join("missing").to_str().expect("a name").to_string();
    let code = |words: &[&str]| command(words).status.code();
    assert_eq!(code(&["--check", &tidy]), Some(0));
    assert_eq!(code(&["--check", &loose, &tidy]), Some(1));
    assert_eq!(fs::read(&loose).expect("a file"), b"a={x}'b'|.");
    assert_eq!(code(&[&loose, &tidy]), Some(0));
    assert_eq!(fs::read(&loose).expect("a file"), b"a: \"b\"; .\n");
    assert_eq!(code(&["--check", &loose]), Some(0));
    let said = String::from_utf8(command(&[&wrong]).stderr).expect("text");
    assert!(
        said.ends_with(
            ": refused 5: the grammar uses a name that has no rule, at line 1, column 4\na: b.\n   ^\n"
        ),
        "{said}"
    );
    assert_eq!(code(&[&wrong]), Some(1));
    assert_eq!(code(&[&missing]), Some(2));
    assert_eq!(code(&[]), Some(2));
    assert_eq!(code(&["--check"]), Some(2));
    assert_eq!(fs::read_dir(&folder).expect("the folder").count(), 3);
}

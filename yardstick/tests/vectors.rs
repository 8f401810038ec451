//! Every line of the shared test vectors.

use ixml_yardstick::cut::{self, Lent, Progress};
use ixml_yardstick::gate::{self, Gate, Verdict};
use ixml_yardstick::limits::GRAMMAR_TABLE;
use ixml_yardstick::{category, check, convert, judge, program, read, second, tidy};
use ixml_yardstick::{Answer, Places};

/// The lines of all files for one of these calls, a line's first field.
fn lines(calls: &[&str]) -> Vec<Vec<String>> {
    let directory = format!("{}/../tests/vectors", env!("CARGO_MANIFEST_DIR"));
    let files = std::fs::read_dir(&directory).expect(&directory);
    let mut files: Vec<_> = files.map(|file| file.expect("a file").path()).collect();
    files.retain(|file| file.extension().is_some_and(|extension| extension == "tsv"));
    files.sort();
    let mut lines = Vec::new();
    for file in files {
        let text = std::fs::read_to_string(&file).expect("a text");
        let fields = text
            .lines()
            .map(|line| line.split('\t').map(str::to_string));
        lines.extend(fields.map(Iterator::collect::<Vec<_>>));
    }
    lines.retain(|fields| calls.contains(&fields[0].as_str()));
    lines
}

fn bytes(hex: &str) -> Vec<u8> {
    if hex == "-" {
        return Vec::new();
    }
    (0..hex.len())
        .step_by(2)
        .map(|at| u8::from_str_radix(&hex[at..at + 2], 16).unwrap())
        .collect()
}

/// The answer in these fields, the result among them.
fn answer(fields: &[String]) -> Answer {
    Answer {
        number: fields[0].parse().unwrap(),
        length: fields[1].parse().unwrap(),
        ambiguous: fields[2] == "1",
        version: fields[3] == "1",
        places: Places {
            byte: fields[5].parse().unwrap(),
            fault: fields[6].parse().unwrap(),
            grammar: fields[7].parse().unwrap(),
        },
    }
}

/// The expected buffer: the result, and behind it the filling.
fn expected<T: Copy>(result: &[T], filling: &[T]) -> Vec<T> {
    let mut buffer = filling.to_vec();
    buffer[..result.len()].copy_from_slice(result);
    buffer
}

#[test]
fn calls() {
    let lines = lines(&["check", "read", "convert"]);
    assert!(lines.len() > 3000);
    for (number, line) in (1..).zip(&lines) {
        let grammar = bytes(&line[1]);
        let record = bytes(&line[2]);
        let main_table: usize = line[3].parse().unwrap();
        let less: isize = line[4].parse().unwrap();
        let grammar_table = GRAMMAR_TABLE.checked_add_signed(less).unwrap();
        let room: usize = line[5].parse().unwrap();
        let answer = answer(&line[6..]);
        let result = &line[10];
        match line[0].as_str() {
            "check" => assert_eq!(check(&grammar), answer, "line {number}"),
            "read" => {
                let filling: Vec<u32> = (0..room as u32).map(|cell| cell ^ 0xA5A5_5A5A).collect();
                let result: Vec<u32> = match result.as_str() {
                    "-" => Vec::new(),
                    numbers => numbers.split(',').map(|n| n.parse().unwrap()).collect(),
                };
                let mut buffer = filling.clone();
                let got = read(&grammar, &record, main_table, grammar_table, &mut buffer);
                assert_eq!(got, answer, "line {number}");
                assert_eq!(buffer, expected(&result, &filling), "line {number}");
            }
            "convert" => {
                let filling: Vec<u8> = (0..room).map(|cell| (cell % 251) as u8 ^ 0xA5).collect();
                let mut buffer = filling.clone();
                let got = convert(&grammar, &record, main_table, grammar_table, &mut buffer);
                assert_eq!(got, answer, "line {number}");
                assert_eq!(buffer, expected(&bytes(result), &filling), "line {number}");
            }
            call => panic!("line {number}: no call {call}"),
        }
    }
}

/// A read in rounds, finished after so many of them: as numbers, and as XML.
#[test]
fn cut_into_rounds() {
    let lines = lines(&["cut"]);
    assert!(lines.len() > 500);
    for line in &lines {
        let less: isize = line[4].parse().unwrap();
        let (grammar, record) = (bytes(&line[1]), bytes(&line[2]));
        let lent = Lent {
            grammar: &grammar,
            record: &record,
            main_table: line[3].parse().unwrap(),
            grammar_table: GRAMMAR_TABLE.checked_add_signed(less).unwrap(),
        };
        let room: usize = line[5].parse().unwrap();
        let filling: Vec<u32> = (0..room as u32).map(|cell| cell ^ 0xA5A5_5A5A).collect();
        let mut buffer = filling.clone();
        let (mut got, mut state) = cut::start(lent);
        if got.answer.number == 0 {
            for _ in 0..line[6].parse().unwrap() {
                assert_eq!(state.round(lent).answer.number, 0, "{line:?}");
            }
            got = state.finish_read(lent, &mut buffer);
        }
        let answer = answer(&line[7..]);
        let rounds = line[15].parse().unwrap();
        assert_eq!(got, Progress { answer, rounds }, "{line:?}");
        let numbers = line[11].split(',').filter(|number| *number != "-");
        let result: Vec<u32> = numbers.map(|number| number.parse().unwrap()).collect();
        assert_eq!(buffer, expected(&result, &filling), "{line:?}");
    }
}

/// The rules, the rounds until finished, and what each round finds.
#[test]
fn rounds() {
    let lines = lines(&["rounds"]);
    assert!(lines.len() > 90);
    for line in &lines {
        let (rules, rounds, counts) = cut::rounds(&bytes(&line[1]), &bytes(&line[2])).unwrap();
        let counts: Vec<String> = counts.iter().map(usize::to_string).collect();
        let got = [rules.to_string(), rounds.to_string(), counts.join(",")];
        assert_eq!(got, line[3..], "{line:?}");
    }
}

#[test]
fn tidied() {
    let lines = lines(&["tidy"]);
    assert!(lines.len() > 500);
    for (number, line) in (1..).zip(&lines) {
        let room: usize = line[2].parse().unwrap();
        let filling: Vec<u8> = (0..room).map(|cell| (cell % 251) as u8 ^ 0xA5).collect();
        let mut buffer = filling.clone();
        let got = tidy(&bytes(&line[1]), &mut buffer);
        let answer = Answer {
            number: line[3].parse().unwrap(),
            length: line[4].parse().unwrap(),
            ambiguous: line[5] == "1",
            version: line[6] == "1",
            places: Places {
                byte: line[8].parse().unwrap(),
                fault: line[9].parse().unwrap(),
                grammar: line[10].parse().unwrap(),
            },
        };
        assert_eq!(got, answer, "line {number}");
        let buffer_now = expected(&bytes(&line[7]), &filling);
        assert_eq!(buffer, buffer_now, "line {number}");
    }
}

#[test]
fn judged() {
    let lines = lines(&["judge"]);
    assert!(lines.len() > 1000);
    for (number, line) in (1..).zip(&lines) {
        let list: Vec<u32> = match line[3].as_str() {
            "-" => Vec::new(),
            numbers => numbers.split(',').map(|n| n.parse().unwrap()).collect(),
        };
        let less: isize = line[4].parse().unwrap();
        let grammar_table = GRAMMAR_TABLE.checked_add_signed(less).unwrap();
        let scratch: usize = line[5].parse().unwrap();
        let room: usize = line[6].parse().unwrap();
        let filling: Vec<u8> = (0..room).map(|cell| (cell % 251) as u8 ^ 0xA5).collect();
        let mut buffer = filling.clone();
        let (grammar, record) = (bytes(&line[1]), bytes(&line[2]));
        let got = judge(
            &grammar,
            &record,
            &list,
            grammar_table,
            scratch,
            &mut buffer,
        );
        let answer = answer(&line[7..]);
        assert_eq!(got, answer, "line {number}");
        let buffer_now = expected(&bytes(&line[11]), &filling);
        assert_eq!(buffer, buffer_now, "line {number}");
    }
}

/// What reading answers is accepted, and so is a second derivation where there is
/// one: exactly where the record is ambiguous.
#[test]
fn readings_are_judged() {
    let lines = lines(&["read"]);
    let mut twice = 0;
    for line in lines.iter().filter(|line| line[6] == "0") {
        let (grammar, record) = (bytes(&line[1]), bytes(&line[2]));
        let first: Vec<u32> = line[10].split(',').map(|n| n.parse().unwrap()).collect();
        let number = |list: &[u32]| {
            let mut result = vec![0; 1 << 20];
            judge(
                &grammar,
                &record,
                list,
                GRAMMAR_TABLE,
                2 * list.len(),
                &mut result,
            )
            .number
        };
        assert_ne!(number(&first), 25, "{line:?}");
        let other = second(&grammar, &record);
        assert_eq!(other.is_some(), line[8] == "1", "{line:?}");
        if let Some(other) = other {
            assert_ne!(other, first, "{line:?}");
            assert_ne!(number(&other), 25, "{line:?}");
            twice += 1;
        }
    }
    assert!(twice > 100, "{twice}");
}

#[test]
fn programs() {
    let lines = lines(&["program"]);
    assert!(lines.len() > 2000);
    for (number, line) in (1..).zip(&lines) {
        let (grammar, record) = (bytes(&line[1]), bytes(&line[2]));
        let output = program(Some(&grammar), Some(&record));
        assert_eq!(
            String::from_utf8_lossy(&output),
            String::from_utf8_lossy(&bytes(&line[3])),
            "line {number}"
        );
    }
}

#[test]
fn categories() {
    let lines = lines(&["category"]);
    assert!(lines.len() > 300);
    for line in &lines {
        let code = line[1].parse().unwrap();
        let name = category(code).map_or("-", |known| known.code());
        assert_eq!(name, line[2], "{code:#x}");
    }
}

/// The doubles of a column, each by its bits in hex.
fn doubles(column: &str) -> Vec<f64> {
    let double = |bits| f64::from_bits(u64::from_str_radix(bits, 16).unwrap());
    column
        .split(',')
        .filter(|bits| *bits != "-")
        .map(double)
        .collect()
}

#[test]
fn gates() {
    let lines = lines(&["gate"]);
    assert!(lines.len() > 800);
    for line in &lines {
        let limits = doubles(&line[2]);
        let gate = match (line[1].as_str(), limits.as_slice()) {
            ("box", &[south, north, west, east]) => Gate::Box {
                latitude: [south, north],
                longitude: [west, east],
            },
            ("band", &[south, north]) => Gate::Band {
                latitude: [south, north],
            },
            ("anywhere", []) => Gate::Anywhere,
            _ => panic!("{line:?}"),
        };
        let (number, verdict) = match gate::judge(gate, &bytes(&line[3]), &bytes(&line[4])) {
            Ok(Verdict::Inside) => (0, "inside"),
            Ok(Verdict::Swapped) => (0, "swapped"),
            Ok(Verdict::Suspect) => (0, "suspect"),
            Err(refusal) => (refusal.number(), "-"),
        };
        assert_eq!([&number.to_string(), verdict], line[5..], "{line:?}");
    }
}

#[test]
fn numbers() {
    let lines = lines(&["number"]);
    assert!(lines.len() > 200);
    for line in &lines {
        let value = gate::number(&bytes(&line[1])).map(|value| format!("{:016x}", value.to_bits()));
        assert_eq!(value.as_deref().unwrap_or("-"), line[2], "{line:?}");
    }
}

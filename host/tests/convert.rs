//! Converting against the yardstick, and its XML as XML.

mod common;

use std::collections::BTreeMap;
use std::path::{Path, PathBuf};
use std::process::Command;
use std::sync::OnceLock;

use common::xml::{canonical, document, parse, Event};
use common::{jobs, on_small_stack, vectors, Converting, Job, Lender, Reading, Room, Tally};
use ixml::limits::{GRAMMAR_TABLE, READING_NUMBERS};
use ixml_yardstick::gen::Random;

const JOBS: usize = 50_000;

/// Documents with what an XML parser must find in them.
type Documents = BTreeMap<String, Vec<Event>>;

/// The document that the library's own reading of the job must become.
fn expected_document(job: &Job, lender: &mut Lender<Reading>) -> Vec<Event> {
    let room = Room {
        main_table: job.main_table().expect("an accepted job"),
        grammar_table: GRAMMAR_TABLE,
        result: READING_NUMBERS,
    };
    let (answer, numbers) = lender.run(job, room, 5);
    assert_eq!(answer.number, 0, "{job:?}");
    let text = |bytes: &[u8]| String::from_utf8(bytes.to_vec()).expect("accepted as UTF-8");
    document(
        &text(&job.grammar),
        &text(&job.record),
        numbers,
        answer.ambiguous,
        answer.version,
    )
}

/// Holds made-up jobs to the yardstick, once for all tests; gives the XML that
/// came of them.
fn made_up_jobs() -> &'static (Tally, Documents) {
    static JOBS: OnceLock<(Tally, Documents)> = OnceLock::new();
    JOBS.get_or_init(|| on_small_stack(run_made_up_jobs))
}

fn run_made_up_jobs() -> (Tally, Documents) {
    let mut random = Random::new(5);
    // Few made-up jobs have longer XML.
    let mut lender: Lender<Converting> = Lender::new(2048);
    let mut readings: Lender<Reading> = Lender::new(READING_NUMBERS);
    let mut tally = Tally::default();
    let mut documents = Documents::new();
    for _ in 0..JOBS {
        let job = Job::made_up(&mut random);
        let (answer, xml) = lender.compare(&job, random.number() as u32);
        tally.add(answer);
        if answer.number == 0 {
            let xml = String::from_utf8(xml).expect("XML in UTF-8");
            let expected = expected_document(&job, &mut readings);
            assert_eq!(parse(&xml).as_ref(), Ok(&expected), "{job:?} {xml}");
            documents.insert(xml, expected);
        }
    }
    (tally, documents)
}

#[test]
fn made_up_jobs_agree_with_the_yardstick() {
    let (tally, documents) = made_up_jobs();
    tally.assert_each([0, 4, 5, 12, 13, 14, 16, 17, 18, 19, 20, 21, 22], 50);
    tally.assert_ambiguous(JOBS / 50);
    println!("{} different documents", documents.len());
    assert!(documents.len() > JOBS / 20);
}

/// Jobs whose XML has everything that must be escaped, in text and in values.
fn escaping_jobs() -> Vec<Job> {
    let text = "<&>'\"\t\n\r\r\n]]>é\u{A0}\u{85}\u{FF}";
    let all: String = (1..=0xFFu8).map(char::from).filter(|c| *c >= ' ').collect();
    let latin: Vec<char> = all.chars().collect();
    let mut jobs = vec![
        Job::new("a: ~[]*.", text),
        Job::new("a: @b. b: ~[]*.", text),
        Job::new("a: @b, c. b: ~['!']*. c: ~[]+.", format!("{text}!{text}")),
        Job::new(
            "a: +'<&>''\"', +#D, +#A, +#9, +#10FFFD, +#FFFD, +#20AC.",
            "",
        ),
        Job::new("a: @b. b: +'<&>''\"', +#D, +#A, +#9, +#10FFFD, +#20AC.", ""),
        Job::new("ixml version '2'. a: b | b. b: @c, 'x'. c: .", "x"),
        Job::new("a\u{B7}.-1: @é. é: 'x'.", "x"),
    ];
    for part in latin.chunks(100) {
        let part: String = part.iter().collect();
        jobs.push(Job::new("a: ~[]*.", &part));
        jobs.push(Job::new("a: @b. b: ~[]*.", &part));
    }
    jobs
}

#[test]
fn escapes_are_read_back() {
    on_small_stack(|| {
        let mut lender: Lender<Converting> = Lender::new(1 << 17);
        let mut readings: Lender<Reading> = Lender::new(READING_NUMBERS);
        for job in escaping_jobs() {
            let (answer, xml) = lender.compare(&job, 7);
            assert_eq!(answer.number, 0, "{job:?}");
            let xml = String::from_utf8(xml).expect("XML in UTF-8");
            let expected = expected_document(&job, &mut readings);
            assert_eq!(parse(&xml), Ok(expected), "{job:?} {xml}");
        }
    });
}

fn directory(name: &str) -> PathBuf {
    let path = Path::new(env!("CARGO_TARGET_TMPDIR")).join(name);
    // What an earlier run left.
    let _ = std::fs::remove_dir_all(&path);
    std::fs::create_dir_all(&path).expect("a directory for files");
    path
}

fn xmllint(arguments: &[&str], files: &[PathBuf]) -> Vec<u8> {
    let output = Command::new("xmllint")
        .args(arguments)
        .args(files)
        .output()
        .expect("xmllint");
    let complaints = String::from_utf8_lossy(&output.stderr);
    assert!(
        output.status.success() && complaints.is_empty(),
        "{complaints}"
    );
    output.stdout
}

/// xmllint accepts every document by itself, and finds in them what it must.
#[test]
#[cfg_attr(
    not(xmllint),
    ignore = "xmllint (Debian's libxml2-utils) is not installed"
)]
fn xmllint_reads_the_documents() {
    let documents = on_small_stack(|| {
        let (_, mut documents) = made_up_jobs().clone();
        let mut lender: Lender<Converting> = Lender::new(1 << 17);
        let mut readings: Lender<Reading> = Lender::new(READING_NUMBERS);
        let of_vectors = vectors::of("convert").into_iter().map(|vector| vector.job);
        let others = escaping_jobs().into_iter().chain(jobs::awkward());
        for job in of_vectors.chain(others) {
            let (answer, xml) = lender.agree(&job, 11);
            if answer.number == 0 {
                let xml = String::from_utf8(xml).expect("XML in UTF-8");
                documents.insert(xml, expected_document(&job, &mut readings));
            }
        }
        documents
    });
    let directory = directory("xmllint");
    let mut files = Vec::new();
    for (number, xml) in documents.keys().enumerate() {
        let file = directory.join(format!("{number}.xml"));
        std::fs::write(&file, xml).expect("a file");
        files.push(file);
    }
    for files in files.chunks(1000) {
        xmllint(&["--huge", "--noout"], files);
    }
    // All of them within one element, in canonical form.
    let all: String = documents.keys().map(String::as_str).collect();
    let expected: String = documents.values().map(|events| canonical(events)).collect();
    let file = directory.join("all.xml");
    std::fs::write(&file, format!("<all>{all}</all>")).expect("a file");
    let read = xmllint(&["--huge", "--c14n"], &[file]);
    let read = String::from_utf8(read).expect("canonical XML in UTF-8");
    assert!(read.trim_end() == format!("<all>{expected}</all>"));
}

/// Names that tabs align in columns come back as they were: from the record,
/// from an insertion, and beside tabs in text.
#[test]
#[cfg_attr(
    not(xmllint),
    ignore = "xmllint (Debian's libxml2-utils) is not installed"
)]
fn xmllint_reads_column_aligned_names_back() {
    let grammar = "probes: @names, +#9. names: ~[#d]*, +#9, +#9.";
    let record = "probe\t\t7\tnorth\tfield\t";
    let mut reader = ixml::Reader::new();
    let converted = reader.convert(grammar, record).expect("XML");
    let expected =
        "<probes names='probe&#x9;&#x9;7&#x9;north&#x9;field&#x9;&#x9;&#x9;'>\t</probes>";
    assert_eq!(converted.xml, expected);
    let file = directory("columns").join("columns.xml");
    std::fs::write(&file, &converted.xml).expect("a file");
    let value = xmllint(&["--xpath", "string(/probes/@names)"], &[file.clone()]);
    let value = String::from_utf8(value).expect("text");
    assert_eq!(value.strip_suffix('\n'), Some(&*format!("{record}\t\t")));
    let text = xmllint(&["--xpath", "string(/probes)"], &[file]);
    assert_eq!(text, b"\t\n");
}

//! Many records on all cores. Outcomes come in the order of the records, and
//! only so many are under way that memory stays flat however many there are.

use std::collections::BTreeMap;
use std::fs::{self, File};
use std::io::{self, BufRead, BufReader, Read};
use std::sync::mpsc::{channel, sync_channel};
use std::sync::Mutex;
use std::thread;

use crate::worker::{Outcome, Worker};

/// The name of standard input.
pub const STANDARD_INPUT: &str = "-";

/// A record, and where it stands: a file, and its line from 1.
pub struct Record {
    pub file: String,
    pub line: usize,
    pub bytes: Vec<u8>,
}

/// What is given to a batch: a record, or a file that cannot be read.
pub enum Given {
    Record(Record),
    Unreadable(String, io::Error),
}

/// The records of files, each whole or one a line.
pub fn given(files: Vec<String>, lines: bool) -> Box<dyn Iterator<Item = Given> + Send> {
    if lines {
        Box::new(files.into_iter().flat_map(by_lines))
    } else {
        Box::new(files.into_iter().map(whole))
    }
}

fn whole(file: String) -> Given {
    match read(&file) {
        Ok(bytes) => Given::Record(Record {
            file,
            line: 1,
            bytes,
        }),
        Err(error) => Given::Unreadable(file, error),
    }
}

/// All bytes of a file or of standard input.
pub fn read(file: &str) -> io::Result<Vec<u8>> {
    if file == STANDARD_INPUT {
        let mut bytes = Vec::new();
        io::stdin().lock().read_to_end(&mut bytes)?;
        return Ok(bytes);
    }
    fs::read(file)
}

/// How many lines files have together, if all can be read twice.
pub fn lines_of(files: &[String]) -> Option<usize> {
    files.iter().map(|file| lines_in(file).ok()).sum()
}

fn lines_in(file: &str) -> io::Result<usize> {
    if file == STANDARD_INPUT || !fs::metadata(file)?.is_file() {
        return Err(io::ErrorKind::Unsupported.into());
    }
    let mut reader = BufReader::with_capacity(1 << 16, File::open(file)?);
    let (mut ends, mut last) = (0, b'\n');
    loop {
        let part = reader.fill_buf()?;
        let Some(&end) = part.last() else {
            return Ok(ends + usize::from(last != b'\n'));
        };
        ends += part.iter().filter(|&&byte| byte == b'\n').count();
        last = end;
        let length = part.len();
        reader.consume(length);
    }
}

fn by_lines(file: String) -> Box<dyn Iterator<Item = Given> + Send> {
    let reader: Box<dyn BufRead + Send> = if file == STANDARD_INPUT {
        Box::new(BufReader::new(io::stdin()))
    } else {
        match File::open(&file) {
            Ok(opened) => Box::new(BufReader::new(opened)),
            Err(error) => return Box::new(std::iter::once(Given::Unreadable(file, error))),
        }
    };
    Box::new(Lines {
        file,
        line: 0,
        reader: Some(reader),
    })
}

/// The lines of a file, without their line ends (LF, or CR and LF). What stands
/// after the last line end is a line unless it is empty.
struct Lines {
    file: String,
    line: usize,
    /// None once the end or an error was met.
    reader: Option<Box<dyn BufRead + Send>>,
}

impl Iterator for Lines {
    type Item = Given;

    fn next(&mut self) -> Option<Given> {
        let reader = self.reader.as_mut()?;
        let mut bytes = Vec::new();
        match reader.read_until(b'\n', &mut bytes) {
            Ok(0) => {
                self.reader = None;
                None
            }
            Ok(_) => {
                self.line += 1;
                if bytes.last() == Some(&b'\n') {
                    bytes.pop();
                    if bytes.last() == Some(&b'\r') {
                        bytes.pop();
                    }
                }
                Some(Given::Record(Record {
                    file: self.file.clone(),
                    line: self.line,
                    bytes,
                }))
            }
            Err(error) => {
                self.reader = None;
                Some(Given::Unreadable(self.file.clone(), error))
            }
        }
    }
}

/// A record with its outcome, or a file that cannot be read.
pub enum Done {
    Record(Record, Outcome),
    Unreadable(String, io::Error),
}

/// Records that are handed to a thread at once.
const CHUNK: usize = 32;

/// Chunks under way, for each thread.
const WINDOW: usize = 8;

/// Converts all, on so many threads, and shows each to `each` in order, which may
/// end the batch by an error.
pub fn convert<E: Send>(
    grammar: &[u8],
    given: impl Iterator<Item = Given> + Send,
    threads: usize,
    mut each: impl FnMut(Done) -> Result<(), E>,
) -> Result<(), E> {
    let threads = threads.max(1);
    let window = WINDOW * threads;
    let (permit, permits) = channel();
    let (hand_out, handed_out) = sync_channel::<(usize, Vec<Given>)>(window);
    let (hand_in, handed_in) = sync_channel::<(usize, Vec<Done>)>(window);
    let handed_out = Mutex::new(handed_out);
    for _ in 0..window {
        let _ = permit.send(());
    }
    thread::scope(|scope| {
        // Dropped where the batch ends, so that nobody waits for another permit.
        let permit = permit;
        scope.spawn(move || {
            let mut given = given.peekable();
            let mut number = 0;
            // Without a permit, or a thread that takes it, the batch has ended.
            while given.peek().is_some() && permits.recv().is_ok() {
                let chunk: Vec<Given> = given.by_ref().take(CHUNK).collect();
                if hand_out.send((number, chunk)).is_err() {
                    return;
                }
                number += 1;
            }
        });
        for _ in 0..threads {
            let (handed_out, hand_in) = (&handed_out, hand_in.clone());
            scope.spawn(move || {
                let mut worker = Worker::default();
                loop {
                    let next = handed_out.lock().expect("no thread panics").recv();
                    let Ok((number, chunk)) = next else { return };
                    let done = chunk.into_iter().map(|given| match given {
                        Given::Record(record) => {
                            let outcome = worker.convert(grammar, &record.bytes);
                            Done::Record(record, outcome)
                        }
                        Given::Unreadable(file, error) => Done::Unreadable(file, error),
                    });
                    if hand_in.send((number, done.collect())).is_err() {
                        return;
                    }
                }
            });
        }
        drop(hand_in);
        let mut early = BTreeMap::new();
        let mut next = 0;
        for (number, chunk) in handed_in {
            early.insert(number, chunk);
            while let Some(chunk) = early.remove(&next) {
                next += 1;
                let _ = permit.send(());
                for done in chunk {
                    each(done)?;
                }
            }
        }
        Ok(())
    })
}

/// One a core.
pub fn threads() -> usize {
    thread::available_parallelism().map_or(1, usize::from)
}

#[cfg(test)]
mod tests {
    use super::*;

    #[test]
    fn lines_are_counted() {
        let directory = std::env::temp_dir().join(format!("ixml-lines-{}", std::process::id()));
        fs::create_dir_all(&directory).expect("a folder");
        let file = |name: &str, text: &str| {
            let path = directory.join(name);
            fs::write(&path, text).expect("a file");
            path.to_str().expect("a name").to_string()
        };
        let (ended, open) = (file("ended", "x\ny\n"), file("open", "x\n\ny"));
        let empty = file("empty", "");
        assert_eq!(lines_of(&[ended.clone(), open, empty]), Some(5));
        assert_eq!(lines_of(&[ended, STANDARD_INPUT.into()]), None);
        assert_eq!(
            lines_of(&[directory.join("none").to_str().expect("a name").into()]),
            None
        );
        fs::remove_dir_all(directory).expect("removed");
    }

    fn records(count: usize) -> impl Iterator<Item = Given> + Send {
        (0..count).map(|number| {
            Given::Record(Record {
                file: "x".into(),
                line: number + 1,
                bytes: vec![b'x'; number % 5],
            })
        })
    }

    #[test]
    fn in_order_on_any_number_of_threads() {
        for threads in [1, 2, 7] {
            let mut lines = Vec::new();
            let each = |done: Done| {
                let Done::Record(record, Outcome::Converted { xml, .. }) = done else {
                    panic!("each is converted");
                };
                assert_eq!(xml.matches('x').count(), record.bytes.len());
                lines.push(record.line);
                Ok::<(), ()>(())
            };
            convert(b"a: 'x'*.", records(2000), threads, each).expect("no error");
            assert_eq!(lines, (1..=2000).collect::<Vec<_>>());
        }
    }

    #[test]
    fn an_error_ends_the_batch() {
        let mut seen = 0;
        let each = |_| {
            seen += 1;
            if seen == 3 {
                return Err("enough");
            }
            Ok(())
        };
        assert_eq!(
            convert(b"a: 'x'*.", records(100_000), 2, each),
            Err("enough")
        );
        assert_eq!(seen, 3);
    }

    #[test]
    fn lines_without_their_ends() {
        let lines = Lines {
            file: String::new(),
            line: 0,
            reader: Some(Box::new(&b"a\r\nb\n\nc\r"[..])),
        };
        let texts: Vec<Vec<u8>> = lines
            .map(|given| match given {
                Given::Record(record) => record.bytes,
                Given::Unreadable(..) => panic!("all is read"),
            })
            .collect();
        assert_eq!(texts, [&b"a"[..], b"b", b"", b"c\r"]);
    }
}

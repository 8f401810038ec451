//! How far a batch is, on a terminal; and its summary.

use std::io::{self, IsTerminal, Write};
use std::time::{Duration, Instant};

use crate::worker::State;

/// How often the line on the terminal is written anew.
const INTERVAL: Duration = Duration::from_millis(100);

/// Cells of the bar.
const BAR: usize = 24;

/// Counts of a batch by state.
#[derive(Clone, Copy, Debug, Default, PartialEq, Eq)]
pub struct Counts {
    by_state: [usize; State::ALL.len()],
    pub unreadable: usize,
}

impl Counts {
    pub fn add(&mut self, state: State) {
        self.by_state[state as usize] += 1;
    }

    pub fn of(&self, state: State) -> usize {
        self.by_state[state as usize]
    }

    pub fn records(&self) -> usize {
        self.by_state.iter().sum()
    }

    /// `3 records: 2 converted, 1 ambiguous, 0 no reading, 0 refused`
    pub fn sentence(&self) -> String {
        let states =
            State::ALL.map(|state| format!("{} {}", grouped(self.of(state)), state.word()));
        let records = self.records();
        let word = if records == 1 { "record" } else { "records" };
        let mut sentence = format!("{} {word}: {}", grouped(records), states.join(", "));
        if self.unreadable > 0 {
            sentence += &format!("; {} unreadable", grouped(self.unreadable));
        }
        sentence
    }
}

/// A number with a comma before each three digits.
pub fn grouped(number: usize) -> String {
    let digits = number.to_string();
    let mut text = String::new();
    for (place, digit) in digits.chars().enumerate() {
        if place > 0 && (digits.len() - place).is_multiple_of(3) {
            text.push(',');
        }
        text.push(digit);
    }
    text
}

/// The line on standard error, if that is a terminal.
pub struct Progress {
    /// How many records there are, if that is known.
    total: Option<usize>,
    begun: Instant,
    shown: Option<Instant>,
    visible: bool,
}

impl Progress {
    pub fn new(total: Option<usize>, quiet: bool) -> Progress {
        Progress {
            total,
            begun: Instant::now(),
            shown: None,
            visible: Progress::visible(quiet),
        }
    }

    /// Whether anybody sees the line.
    pub fn visible(quiet: bool) -> bool {
        !quiet && io::stderr().is_terminal()
    }

    pub fn show(&mut self, counts: &Counts) {
        let due = self.shown.is_none_or(|shown| shown.elapsed() >= INTERVAL);
        if self.visible && due {
            self.shown = Some(Instant::now());
            let line = line(
                counts.records() + counts.unreadable,
                self.total,
                self.begun.elapsed(),
            );
            let _ = write!(io::stderr(), "\r\x1b[K{line}");
        }
    }

    /// Makes room for other lines.
    pub fn clear(&mut self) {
        if self.visible && self.shown.take().is_some() {
            let _ = write!(io::stderr(), "\r\x1b[K");
        }
    }

    /// The summary of the whole batch.
    pub fn summary(&self, counts: &Counts) -> String {
        let seconds = self.begun.elapsed().as_secs_f64();
        let rate = counts.records() as f64 / seconds.max(1e-9);
        format!(
            "{}; {seconds:.1} s, {} a second",
            counts.sentence(),
            grouped(rate as usize)
        )
    }
}

fn line(done: usize, total: Option<usize>, elapsed: Duration) -> String {
    let rate = (done as f64 / elapsed.as_secs_f64().max(1e-9)) as usize;
    match total {
        Some(total) if total > 0 => {
            let filled = BAR * done.min(total) / total;
            let bar: String = (0..BAR)
                .map(|cell| if cell < filled { '█' } else { '░' })
                .collect();
            format!(
                "{bar} {} of {} · {} a second",
                grouped(done),
                grouped(total),
                grouped(rate)
            )
        }
        _ => format!("{} records · {} a second", grouped(done), grouped(rate)),
    }
}

#[cfg(test)]
mod tests {
    use super::*;

    #[test]
    fn numbers() {
        assert_eq!(grouped(0), "0");
        assert_eq!(grouped(999), "999");
        assert_eq!(grouped(1_000), "1,000");
        assert_eq!(grouped(1_234_567), "1,234,567");
    }

    #[test]
    fn lines() {
        let second = Duration::from_secs(1);
        assert_eq!(line(1500, None, second), "1,500 records · 1,500 a second");
        let half = format!("{}{} 2 of 4 · 2 a second", "█".repeat(12), "░".repeat(12));
        assert_eq!(line(2, Some(4), second), half);
    }

    #[test]
    fn counted() {
        let mut counts = Counts::default();
        counts.add(State::Converted);
        counts.add(State::NoReading);
        counts.unreadable = 1;
        let sentence = "2 records: 1 converted, 0 ambiguous, 1 no reading, 0 refused; 1 unreadable";
        assert_eq!(counts.sentence(), sentence);
    }
}

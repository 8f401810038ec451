//! `ixml-records gate`: from records to what a grower's gate says of their
//! positions.

use std::io::{self, Write};

use ixml::{Gate, Latitude, Longitude, Verdict};

use crate::args::Positions;
use crate::batch::{self, Done};
use crate::diagnosis::{diagnose, Source};
use crate::single::{accepted, source};
use crate::worker::{Outcome, Worker};
use crate::Status;

/// A line for each record, with its verdict.
pub fn positions(asked: Positions) -> io::Result<Status> {
    let (grammar, gate) = (&asked.grammar, asked.gate);
    let names = [asked.lat.as_str(), asked.lon.as_str()];
    let Some(bytes) = source(grammar) else {
        return Ok(Status::Failed);
    };
    if !accepted(grammar, &bytes) {
        return Ok(Status::Refused);
    }
    let mut worker = Worker::default();
    let mut status = Status::Well;
    let mut out = io::stdout().lock();
    let given = batch::given(asked.records, asked.lines);
    batch::convert(&bytes, given, batch::threads(), |done| -> io::Result<()> {
        let (record, outcome) = match done {
            Done::Unreadable(file, error) => {
                eprintln!("{file}: {error}");
                status = status.max(Status::Failed);
                return Ok(());
            }
            Done::Record(record, outcome) => (record, outcome),
        };
        let (irrigate, told) = match &outcome {
            Outcome::Refused(answer) => {
                let on = Source {
                    name: &record.file,
                    line: record.line,
                    bytes: &record.bytes,
                };
                eprintln!(
                    "{}",
                    diagnose(
                        *answer,
                        Source::file(grammar, &bytes),
                        on,
                        Some(&mut worker)
                    )
                );
                (false, "the record is not read".to_string())
            }
            Outcome::Converted { xml, ambiguous, .. } => judged(xml, *ambiguous, gate, names),
        };
        if !irrigate {
            status = status.max(Status::Refused);
        }
        let advice = if irrigate {
            "irrigate"
        } else {
            "do not irrigate"
        };
        writeln!(out, "{}:{}: {advice}: {told}", record.file, record.line)
    })?;
    out.flush()?;
    Ok(status)
}

/// Whether to irrigate by the position, and why or why not.
fn judged(xml: &str, ambiguous: bool, gate: Gate, names: [&str; 2]) -> (bool, String) {
    let Some((lat, lon)) = attribute(xml, names[0]).zip(attribute(xml, names[1])) else {
        return (false, "the record has no position".into());
    };
    if ambiguous {
        let told = "the grammar reads the record in more than one way; it is to be mended";
        return (false, told.into());
    }
    match gate.judge(Latitude::new(lat), Longitude::new(lon)) {
        Ok(Verdict::Inside) => (true, format!("{lat}, {lon} is inside")),
        Ok(Verdict::Swapped) => (
            false,
            format!(
                "{lat}, {lon} is outside, and inside once latitude and longitude are exchanged"
            ),
        ),
        Ok(Verdict::Suspect) => (false, format!("{lat}, {lon} is outside")),
        Err(refusal) => (false, refusal.to_string()),
    }
}

/// What stands between the quotes of the first attribute of that name.
/// References may stay as they are: a text with one is no number text either
/// way.
fn attribute<'a>(xml: &'a str, name: &str) -> Option<&'a str> {
    let mut rest = xml;
    while let Some((_, tag)) = rest.split_once('<') {
        // A value has no bare > or ', so a tag ends at the first >.
        let (tag, after) = tag.split_once('>')?;
        if let Some((_, value)) = tag.split_once(&format!(" {name}='")) {
            return value.split_once('\'').map(|(value, _)| value);
        }
        rest = after;
    }
    None
}

#[cfg(test)]
mod tests {
    use super::*;

    #[test]
    fn attributes_of_tags_alone() {
        let xml = "<a b='1'> lat='7'<c lat='2' lon=''/></a>";
        assert_eq!(attribute(xml, "lat"), Some("2"));
        assert_eq!(attribute(xml, "lon"), Some(""));
        assert_eq!(attribute(xml, "x"), None);
    }

    #[test]
    fn verdicts() {
        let gate = Gate::Box {
            south: 44.0,
            north: 46.5,
            west: 11.0,
            east: 13.0,
        };
        let of = |xml: &str, ambiguous| judged(xml, ambiguous, gate, ["lat", "lon"]);
        assert!(of("<p lat='45' lon='12'/>", false).0);
        assert!(!of("<p lat='45' lon='12'/>", true).0);
        assert!(of("<p lat='12' lon='45'/>", false).1.contains("exchanged"));
        assert!(of("<p lat='1' lon='2'/>", false).1.contains("outside"));
        assert!(of("<p lat='x' lon='2'/>", false).1.contains("31"));
        assert!(!of("<p/>", false).0);
    }
}

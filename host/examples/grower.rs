//! From a probe's record to what its grower sees: the record is read, the
//! ambiguous mark looked at, and the position put to the grower's gate.
//!
//!     cargo run --example grower -- GRAMMAR RECORD [box S N W E | band S N]
//!
//! GRAMMAR and RECORD are files; the limits are degrees. `demo/grower` shows it
//! on the grammars of demo/.

use std::process::ExitCode;

use ixml::{Gate, Latitude, Longitude, Reader, Verdict};

/// What the grower is told, by lines: the XML, what the reader and the gate say,
/// and whether to irrigate by the position.
pub fn told(grammar: &[u8], record: &[u8], gate: Gate) -> Vec<String> {
    let converted = match Reader::new().convert(grammar, record) {
        Ok(converted) => converted,
        Err(refusal) => return vec![format!("reader: {refusal}"), no("the record is not read")],
    };
    let mut lines = vec![converted.xml.clone()];
    let texts = attribute(&converted.xml, "lat").zip(attribute(&converted.xml, "lon"));
    let Some((lat, lon)) = texts else {
        lines.push(no("the record has no position"));
        return lines;
    };
    if converted.ambiguous {
        lines.push("reader: the grammar reads the record in more than one way".to_string());
    }
    let judged = gate.judge(Latitude::new(lat), Longitude::new(lon));
    lines.push(match judged {
        Ok(Verdict::Inside) => format!("gate: {lat}, {lon} is inside"),
        Ok(Verdict::Swapped) => {
            format!("gate: {lat}, {lon} is outside, and inside once exchanged")
        }
        Ok(Verdict::Suspect) => format!("gate: {lat}, {lon} is outside"),
        Err(refusal) => format!("gate: {refusal}"),
    });
    lines.push(match (converted.ambiguous, judged) {
        (true, _) => no("nothing says which number is the latitude; the grammar is to be mended"),
        (false, Ok(Verdict::Inside)) => "grower: irrigate by this position".to_string(),
        (false, Ok(Verdict::Swapped)) => no("latitude and longitude look exchanged"),
        (false, Ok(Verdict::Suspect)) => no("the probe is not where the fields are"),
        (false, Err(_)) => no("there is no verdict"),
    });
    lines
}

fn no(reason: &str) -> String {
    format!("grower: do not irrigate: {reason}")
}

/// What stands between the quotes of an attribute. References may stay as they
/// are: a text with one is no number text either way.
fn attribute<'a>(xml: &'a str, name: &str) -> Option<&'a str> {
    let (_, after) = xml.split_once(&format!(" {name}='"))?;
    after.split_once('\'').map(|(value, _)| value)
}

/// The gate that the words name.
fn gate(words: &[String]) -> Option<Gate> {
    let limit = |word: &String| word.parse::<f64>().ok();
    match words {
        [] => Some(Gate::Anywhere),
        [kind, south, north, west, east] if kind == "box" => Some(Gate::Box {
            south: limit(south)?,
            north: limit(north)?,
            west: limit(west)?,
            east: limit(east)?,
        }),
        [kind, south, north] if kind == "band" => Some(Gate::Band {
            south: limit(south)?,
            north: limit(north)?,
        }),
        _ => None,
    }
}

#[allow(dead_code)] // The test of the story calls `told` alone.
fn main() -> ExitCode {
    let words: Vec<String> = std::env::args().skip(1).collect();
    let files = words.get(..2).map(|files| files.iter().map(std::fs::read));
    let contents = files.and_then(|files| files.collect::<Result<Vec<_>, _>>().ok());
    let gate = words.get(2..).and_then(gate);
    let (Some(contents), Some(gate)) = (contents, gate) else {
        eprintln!("usage: grower GRAMMAR RECORD [box SOUTH NORTH WEST EAST | band SOUTH NORTH]");
        return ExitCode::from(2);
    };
    for line in told(&contents[0], &contents[1], gate) {
        println!("{line}");
    }
    ExitCode::SUCCESS
}

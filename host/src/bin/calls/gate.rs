//! Lines for the position gate.

use ixml::{Gate, GateError, Latitude, Longitude, Verdict};

/// The number and the verdict of a gate.
pub fn ruling(kind: &str, limits: &str, lat: &[u8], lon: &[u8]) -> Result<String, String> {
    let gate = parse(kind, &doubles(limits)?)?;
    Ok(match gate.judge(Latitude(lat), Longitude(lon)) {
        Ok(Verdict::Inside) => "0\tinside".to_string(),
        Ok(Verdict::Swapped) => "0\tswapped".to_string(),
        Ok(Verdict::Suspect) => "0\tsuspect".to_string(),
        Err(refusal) => format!("{}\t-", refusal.number()),
    })
}

/// The bits of a number text's value.
pub fn value(text: &[u8]) -> String {
    match ixml::number(text) {
        Ok(value) => format!("{:016x}", value.to_bits()),
        Err(GateError::NoNumber) => "-".to_string(),
        Err(refusal) => refusal.to_string(),
    }
}

fn parse(kind: &str, limits: &[f64]) -> Result<Gate, String> {
    match (kind, limits) {
        ("box", &[south, north, west, east]) => Ok(Gate::Box {
            south,
            north,
            west,
            east,
        }),
        ("band", &[south, north]) => Ok(Gate::Band { south, north }),
        ("anywhere", []) => Ok(Gate::Anywhere),
        _ => Err(format!("no gate {kind:?} with {} limits", limits.len())),
    }
}

/// The doubles of a column, each by its bits in hex.
fn doubles(column: &str) -> Result<Vec<f64>, String> {
    if column == "-" {
        return Ok(Vec::new());
    }
    let double = |bits: &str| {
        let bits = u64::from_str_radix(bits, 16);
        bits.map(f64::from_bits)
            .map_err(|_| format!("{column:?} is no column of doubles"))
    };
    column.split(',').map(double).collect()
}

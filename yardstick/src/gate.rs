//! The position gate: what a grower's limits say of a latitude and a longitude.

use crate::Refusal;

/// The most degrees either way of a latitude and of a longitude.
const LATITUDE: f64 = 90.0;
const LONGITUDE: f64 = 180.0;

/// Limits, each as low and high.
#[derive(Clone, Copy, Debug, PartialEq)]
pub enum Gate {
    Box {
        latitude: [f64; 2],
        longitude: [f64; 2],
    },
    Band {
        latitude: [f64; 2],
    },
    Anywhere,
}

#[derive(Clone, Copy, Debug, PartialEq, Eq)]
pub enum Verdict {
    Inside,
    Swapped,
    Suspect,
}

/// The value of a number text. Its shape is judged here; the value is that of
/// the standard library's parser, which gives the nearest double.
pub fn number(text: &[u8]) -> Option<f64> {
    let text = std::str::from_utf8(text).ok()?;
    let size = text.strip_prefix('-').unwrap_or(text);
    let digits = |part: &str, most: usize| {
        (1..=most).contains(&part.len()) && part.bytes().all(|byte| byte.is_ascii_digit())
    };
    let fits = match size.split_once('.') {
        Some((whole, fraction)) => digits(whole, 3) && digits(fraction, 9),
        None => digits(size, 3),
    };
    fits.then(|| text.parse().expect("a number"))
}

/// What a gate says of two attribute texts: 30, 31 and 32 in this order.
pub fn judge(gate: Gate, latitude: &[u8], longitude: &[u8]) -> Result<Verdict, Refusal> {
    if !gate.limits().all(is_range) {
        return Err(Refusal::UnsoundGate);
    }
    let position = number(latitude).zip(number(longitude));
    let (latitude, longitude) = position.ok_or(Refusal::NoNumber)?;
    if latitude.abs() > LATITUDE || longitude.abs() > LONGITUDE {
        return Err(Refusal::OutOfRange);
    }
    let is_box = matches!(gate, Gate::Box { .. });
    Ok(if gate.holds(latitude, longitude) {
        Verdict::Inside
    } else if is_box && longitude.abs() <= LATITUDE && gate.holds(longitude, latitude) {
        Verdict::Swapped
    } else {
        Verdict::Suspect
    })
}

fn is_range([low, high]: [f64; 2]) -> bool {
    low.is_finite() && high.is_finite() && low <= high
}

fn within([low, high]: [f64; 2], value: f64) -> bool {
    (low..=high).contains(&value)
}

impl Gate {
    fn limits(self) -> impl Iterator<Item = [f64; 2]> {
        let (latitude, longitude) = match self {
            Gate::Box {
                latitude,
                longitude,
            } => (Some(latitude), Some(longitude)),
            Gate::Band { latitude } => (Some(latitude), None),
            Gate::Anywhere => (None, None),
        };
        latitude.into_iter().chain(longitude)
    }

    fn holds(self, latitude: f64, longitude: f64) -> bool {
        self.limits()
            .zip([latitude, longitude])
            .all(|(limits, value)| within(limits, value))
    }
}

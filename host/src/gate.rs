//! The position gate: is a position where a grower's fields are?

use std::fmt;

use crate::ffi;

/// The text of a latitude attribute, as it stands between the quotes.
///
/// A number text has an optional minus, 1 to 3 digits and, optionally, a point
/// and 1 to 9 digits. None of these characters is written as a reference, so the
/// text of an attribute and what stands in the XML for it are number texts
/// alike.
#[derive(Clone, Copy, Debug, PartialEq, Eq, Hash)]
pub struct Latitude<'a>(pub &'a [u8]);

/// The text of a longitude attribute. It cannot stand for a latitude:
///
/// ```compile_fail,E0308
/// use ixml::{Gate, Latitude, Longitude};
///
/// let _ = Gate::Anywhere.judge(Longitude::new("12"), Latitude::new("45"));
/// ```
#[derive(Clone, Copy, Debug, PartialEq, Eq, Hash)]
pub struct Longitude<'a>(pub &'a [u8]);

impl<'a> Latitude<'a> {
    pub fn new(text: &'a (impl AsRef<[u8]> + ?Sized)) -> Latitude<'a> {
        Latitude(text.as_ref())
    }
}

impl<'a> Longitude<'a> {
    pub fn new(text: &'a (impl AsRef<[u8]> + ?Sized)) -> Longitude<'a> {
        Longitude(text.as_ref())
    }
}

/// Where a grower's positions may be. Limits are in degrees and included.
#[derive(Clone, Copy, Debug, PartialEq)]
pub enum Gate {
    /// Between two latitudes and two longitudes.
    Box {
        south: f64,
        north: f64,
        west: f64,
        east: f64,
    },
    /// Between two latitudes.
    Band { south: f64, north: f64 },
    /// Wherever a position can be.
    Anywhere,
}

/// What a gate says of a position.
#[derive(Clone, Copy, Debug, PartialEq, Eq, Hash)]
pub enum Verdict {
    /// Inside the limits.
    Inside,
    /// Outside, and inside once latitude and longitude are exchanged. Only a
    /// box says so.
    Swapped,
    /// Outside either way.
    Suspect,
}

/// Why there is no verdict. The order is that in which refusals are judged.
#[derive(Clone, Copy, Debug, PartialEq, Eq, Hash)]
pub enum GateError {
    /// 30: a limit is not finite, or a low limit is above its high one.
    UnsoundGate,
    /// 31: a text is no number text.
    NoNumber,
    /// 32: the latitude is beyond 90 degrees, or the longitude beyond 180.
    OutOfRange,
}

impl GateError {
    pub fn number(self) -> u32 {
        match self {
            GateError::UnsoundGate => 30,
            GateError::NoNumber => 31,
            GateError::OutOfRange => 32,
        }
    }

    /// What is wrong, in words.
    pub fn sentence(self) -> &'static str {
        match self {
            GateError::UnsoundGate => {
                "a limit of the gate is not finite, or a low limit is above its high one"
            }
            GateError::NoNumber => "the latitude or the longitude is no number",
            GateError::OutOfRange => {
                "the latitude is beyond 90 degrees, or the longitude beyond 180"
            }
        }
    }

    /// # Panics
    ///
    /// If the number is that of no refusal of a gate.
    fn of(number: u32) -> GateError {
        match number {
            30 => GateError::UnsoundGate,
            31 => GateError::NoNumber,
            32 => GateError::OutOfRange,
            _ => panic!("{number} is the number of no refusal of a gate"),
        }
    }
}

impl fmt::Display for GateError {
    fn fmt(&self, formatter: &mut fmt::Formatter<'_>) -> fmt::Result {
        write!(formatter, "refused {}: {}", self.number(), self.sentence())
    }
}

impl std::error::Error for GateError {}

impl Gate {
    /// The verdict on a position.
    ///
    /// ```
    /// use ixml::{Gate, GateError, Latitude, Longitude, Verdict};
    ///
    /// let fields = Gate::Box { south: 44.0, north: 46.5, west: 11.0, east: 13.0 };
    /// let judge = |lat, lon| fields.judge(Latitude::new(lat), Longitude::new(lon));
    /// assert_eq!(judge("45.25", "12"), Ok(Verdict::Inside));
    /// assert_eq!(judge("12", "45.25"), Ok(Verdict::Swapped));
    /// assert_eq!(judge("45.25", "-12"), Ok(Verdict::Suspect));
    /// assert_eq!(judge("45,25", "12"), Err(GateError::NoNumber));
    /// ```
    pub fn judge(self, latitude: Latitude, longitude: Longitude) -> Result<Verdict, GateError> {
        let (Latitude(lat), Longitude(lon)) = (latitude, longitude);
        // SAFETY: the pointers and lengths are those of slices.
        let answer = unsafe {
            match self {
                Gate::Box {
                    south,
                    north,
                    west,
                    east,
                } => ffi::ixml_gate_box(
                    south,
                    north,
                    west,
                    east,
                    lat.as_ptr(),
                    lat.len(),
                    lon.as_ptr(),
                    lon.len(),
                ),
                Gate::Band { south, north } => ffi::ixml_gate_band(
                    south,
                    north,
                    lat.as_ptr(),
                    lat.len(),
                    lon.as_ptr(),
                    lon.len(),
                ),
                Gate::Anywhere => {
                    ffi::ixml_gate_anywhere(lat.as_ptr(), lat.len(), lon.as_ptr(), lon.len())
                }
            }
        };
        match (answer.number, answer.verdict) {
            (0, 1) => Ok(Verdict::Inside),
            (0, 2) => Ok(Verdict::Swapped),
            (0, 3) => Ok(Verdict::Suspect),
            (number, _) => Err(GateError::of(number)),
        }
    }
}

/// The value of a number text: the double that is nearest to it.
///
/// ```
/// assert_eq!(ixml::number("-12.5"), Ok(-12.5));
/// assert_eq!(ixml::number("1e1"), Err(ixml::GateError::NoNumber));
/// ```
pub fn number(text: impl AsRef<[u8]>) -> Result<f64, GateError> {
    let text = text.as_ref();
    // SAFETY: the pointer and the length are those of a slice.
    let answer = unsafe { ffi::ixml_number(text.as_ptr(), text.len()) };
    match answer.number {
        0 => Ok(answer.value),
        number => Err(GateError::of(number)),
    }
}

//! Invisible XML 1.0 for short records, by the proved library.
//!
//! A grammar and a record, both as bytes, give a reading and its XML. Every
//! input has an answer; nothing is required of a caller.
//!
//! [`Reader`] is the short way: it provides all the memory that a job needs.
//! ```
//! let grammar = "p: @lat, -' ', @lon. lat: d+. lon: d+. -d: ['0'-'9'].";
//! let converted = ixml::Reader::new().convert(grammar, "45 12")?;
//! assert_eq!(converted.xml, "<p lat='45' lon='12'/>");
//! assert!(!converted.ambiguous);
//! # Ok::<(), ixml::Error>(())
//! ```
//! [`check`], [`tidy`], [`read`], [`read_plain`], [`convert`], [`judge`] and
//! [`category`] are the library's calls themselves, for a caller who provides tables and
//! buffers: see [`limits`] for their lengths. An [`Answer`] tells how a call went;
//! [`Answer::ok`] turns it into a `Result` whose [`Error`] has a sentence for each
//! refusal, and shows where a grammar is at fault ([`Error::shown_in`]).
//!
//! [`Rounds`] reads a record in rounds, so that a program can do other things in
//! between; [`rounds`] has the calls that it is made of.
//!
//! [`Gate`] judges a position by the texts of its two attributes, and [`number`]
//! gives the value of such a text.
//!
//! A call allocates nothing and needs no more than 1 MB of stack.

mod answer;
mod calls;
mod category;
mod error;
mod fault;
pub mod ffi;
pub mod files;
mod gate;
pub mod limits;
mod reader;
pub mod rounds;
mod second;
mod spot;

pub use answer::{Answer, Places};
pub use calls::{check, convert, judge, read, read_plain, tidy, tidy_text};
pub use category::{category, Category};
pub use error::{Error, NotRefused, Quote};
pub use fault::Fault;
pub use gate::{number, Gate, GateError, Latitude, Longitude, Verdict};
pub use reader::{Converted, Engine, Reader, Reading};
pub use rounds::{Progress, Round, Rounds, State};
pub use second::{second_reading, TwoReadings};
pub use spot::Spot;

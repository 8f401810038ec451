//! Invisible XML for short records.
//!
//! A grammar text and a record, both as bytes, give a reading (the left parse
//! of one derivation) and its XML. The modules follow the order of a job:
//! decode the texts, read the grammar, check it, reduce it to plain rules,
//! parse the record, choose a reading, write the XML. The position gate stands
//! apart, and so do the writer of tidy grammars and the read in rounds.

pub mod alphabet;
pub mod category;
pub mod charset;
pub mod cut;
pub mod engine;
pub mod gate;
pub mod gen;
pub mod judge;
pub mod limits;
mod lists;
pub mod plain;
pub mod productive;
pub mod reading;
pub mod refusal;
pub mod second;
pub mod statics;
pub mod syntax;
pub mod text;
pub mod tidy;
pub mod xml;

mod calls;
mod program;

pub use calls::{check, convert, judge, read, second, tidy, Answer};
pub use category::{category, Category};
pub use program::program;
pub use refusal::{Places, Refusal};

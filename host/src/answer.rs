use crate::Error;

/// The answer of a call.
#[repr(C)]
#[derive(Clone, Copy, Debug, Default, PartialEq, Eq)]
pub struct Answer {
    /// 0, or the number of a refusal.
    pub number: u32,
    /// How many cells of the result are filled. 0 with every refusal, and
    /// always 0 from checking.
    pub length: usize,
    /// The record has more than one derivation. Never with a refusal, and
    /// never from checking.
    pub ambiguous: bool,
    /// The grammar's prolog names another version than 1.0; it is read as 1.0
    /// all the same. Only with the numbers 0 and 16.
    pub version: bool,
    pub places: Places,
}

/// Where a job is at fault. A place that the number does not name is 0.
#[repr(C)]
#[derive(Clone, Copy, Debug, Default, PartialEq, Eq)]
pub struct Places {
    /// With 2, 3, 12 and 13: the first byte of what is not UTF-8, or outside the
    /// alphabet, from the first byte of the grammar or of the record on.
    pub byte: usize,
    /// With 16: how many of the record's first characters begin some text that
    /// the grammar accepts.
    pub fault: usize,
    /// With 5 to 10: the first name, hex number (its `#`), range or class of the
    /// grammar at fault, in characters after a byte order mark; with 6 the first
    /// rule's name that an earlier rule has.
    pub grammar: usize,
}

impl Answer {
    /// The answer itself if its number is 0, and the refusal otherwise.
    ///
    /// ```
    /// use ixml::{check, Error};
    ///
    /// assert!(check(b"a: 'x'.").ok().is_ok());
    /// assert_eq!(check(b"a: b.").ok(), Err(Error::UndefinedName { place: 3 }));
    /// ```
    pub fn ok(self) -> Result<Answer, Error> {
        match self.number {
            0 => Ok(self),
            _ => Err(Error::try_from(self).expect("the library gives no other number")),
        }
    }
}

/// An answer of the yardstick, in the library's words.
impl From<ixml_yardstick::Answer> for Answer {
    fn from(answer: ixml_yardstick::Answer) -> Answer {
        Answer {
            number: answer.number,
            length: answer.length,
            ambiguous: answer.ambiguous,
            version: answer.version,
            places: Places {
                byte: answer.places.byte,
                fault: answer.places.fault,
                grammar: answer.places.grammar,
            },
        }
    }
}

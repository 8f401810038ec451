use std::fmt;

use crate::{Answer, Spot};

/// An answer's number that is that of no refusal.
#[derive(Clone, Copy, Debug, PartialEq, Eq, Hash)]
pub struct NotRefused {
    /// The number: 0 if the job was done.
    pub number: u32,
}

impl fmt::Display for NotRefused {
    fn fmt(&self, formatter: &mut fmt::Formatter<'_>) -> fmt::Result {
        write!(formatter, "{} is the number of no refusal", self.number)
    }
}

impl std::error::Error for NotRefused {}

/// Declares the refusals, each with its number and its sentence.
macro_rules! errors {
    ($($(#[$attribute:meta])* $name:ident $({ $($field:ident: $type:ty = $from:expr),+ })? = $number:literal, $sentence:literal;)*) => {
        /// Why a job was refused. The order is that in which refusals are
        /// judged: the first that applies is given. `byte` is the place of the
        /// first byte at fault and `quote` what stands there, as far as it is
        /// known; `place` is that of the first character of the grammar at fault,
        /// after a byte order mark, or with 16 how many of the record's first
        /// characters begin some text that the grammar accepts; `version_mismatch`
        /// says that the grammar's prolog names another version than 1.0.
        ///
        /// ```
        /// let error = ixml::check(b"a: ['b'-'a'].").ok().unwrap_err();
        /// assert_eq!(error, ixml::Error::BackwardRange { place: 4 });
        /// assert_eq!(error.number(), 9);
        /// assert_eq!(
        ///     error.to_string(),
        ///     "refused 9: the grammar has a range that runs backwards, at character 4"
        /// );
        /// ```
        #[derive(Clone, Copy, Debug, PartialEq, Eq, Hash)]
        #[non_exhaustive]
        pub enum Error {
            $(
                #[doc = concat!(stringify!($number), ": ", $sentence, ".")]
                $(#[$attribute])*
                $name $({ $($field: $type),+ })?,
            )*
        }

        impl Error {
            /// The number of an answer with this refusal.
            pub fn number(self) -> u32 {
                match self {
                    $(Error::$name { .. } => $number,)*
                }
            }

            /// What is wrong, in words.
            pub fn sentence(self) -> &'static str {
                match self {
                    $(Error::$name { .. } => $sentence,)*
                }
            }
        }

        impl TryFrom<Answer> for Error {
            type Error = NotRefused;

            /// The refusal of an answer. The calls give no number but 0 and
            /// those of the refusals.
            ///
            /// ```
            /// use ixml::{Error, NotRefused};
            ///
            /// let accepted = ixml::check(b"a: 'x'.");
            /// assert_eq!(Error::try_from(accepted), Err(NotRefused { number: 0 }));
            /// ```
            fn try_from(answer: Answer) -> Result<Error, NotRefused> {
                match answer.number {
                    $($number => Ok(Error::$name $({ $($field: $from(answer)),+ })?),)*
                    number => Err(NotRefused { number }),
                }
            }
        }
    };
}

errors! {
    GrammarTooLong = 1, "the grammar is over 4,096 bytes long";
    GrammarNotUtf8 { byte: usize = byte, quote: Quote = unquoted } = 2, "the grammar is not UTF-8";
    GrammarCharacter { byte: usize = byte, quote: Quote = unquoted } = 3, "the grammar holds a character outside the alphabet (U+0000 to U+017F, U+0300 to U+036F, U+203F, U+2040)";
    NotIxml = 4, "the grammar is not in the ixml language, or nests brackets or comments over 16 deep";
    UndefinedName { place: usize = place } = 5, "the grammar uses a name that has no rule";
    RepeatedRule { place: usize = place } = 6, "the grammar has two rules of one name";
    HexTooLarge { place: usize = place } = 7, "the grammar has a hex number above 10FFFF";
    HexNoCharacter { place: usize = place } = 8, "the grammar has a hex number of a surrogate or a noncharacter";
    BackwardRange { place: usize = place } = 9, "the grammar has a range that runs backwards";
    UnknownClass { place: usize = place } = 10, "the grammar names a character class that does not exist";
    GrammarTooLarge = 11, "the grammar's size is over 512";
    UnproductiveRule = 24, "a rule of the grammar derives no text at all: each of its alternatives needs itself, or a character that no record may hold";
    RecordNotUtf8 { byte: usize = byte, quote: Quote = unquoted } = 12, "the record is not UTF-8";
    RecordCharacter { byte: usize = byte, quote: Quote = unquoted } = 13, "the record holds a character outside the alphabet (U+0000 to U+017F, U+0300 to U+036F, U+203F, U+2040)";
    RecordTooLong = 14, "the record has over 200 characters";
    OtherState = 27, "the state or the main table is not that of this read: another grammar or record, a start that was refused, or something altered in between";
    TableTooShort = 15, "the main table, the scratch or the grammar table is too short";
    NotYet = 26, "the read is not finished: it needs more rounds";
    NoReading { version_mismatch: bool = version, place: usize = fault } = 16, "the grammar does not derive the record";
    NoDerivation = 25, "the list of numbers is no derivation of the record by the grammar";
    ReadingTooLong = 29, "the chosen reading has over 4,096 numbers";
    RepeatedAttribute = 17, "the XML would have an attribute twice on one element";
    NotXmlName = 18, "the XML would have a name that is no XML name";
    NotXmlCharacter = 19, "the XML would have a character that is no XML character";
    AttributeRoot = 20, "the root rule is marked @, and a document is no attribute";
    DeletedRoot = 21, "the root rule is marked -, and what is left of it is not one element with nothing beside it";
    AttributeXmlns = 22, "the XML would have an attribute named xmlns";
    TidyTooLong = 28, "the grammar's tidy text is over 4,096 bytes long";
    ResultTooLong = 23, "the result is longer than the buffer that was lent for it";
}

impl Error {
    /// The place of the first byte at fault, for the refusals that name one.
    ///
    /// ```
    /// let error = ixml::check(b"a: '\xE2'.").ok().unwrap_err();
    /// assert_eq!(error.byte(), Some(4));
    /// assert_eq!(error.to_string(), "refused 2: the grammar is not UTF-8, at byte 4");
    /// ```
    pub fn byte(self) -> Option<usize> {
        match self {
            Error::GrammarNotUtf8 { byte, .. }
            | Error::GrammarCharacter { byte, .. }
            | Error::RecordNotUtf8 { byte, .. }
            | Error::RecordCharacter { byte, .. } => Some(byte),
            _ => None,
        }
    }

    /// The place of the first character of the grammar at fault, after a byte
    /// order mark, for the refusals that name one.
    pub fn place(self) -> Option<usize> {
        match self {
            Error::UndefinedName { place }
            | Error::RepeatedRule { place }
            | Error::HexTooLarge { place }
            | Error::HexNoCharacter { place }
            | Error::BackwardRange { place }
            | Error::UnknownClass { place } => Some(place),
            _ => None,
        }
    }

    /// What is wrong, for a person who has the grammar before them: line,
    /// column, and the line itself with a mark under the place.
    ///
    /// ```
    /// let grammar = "a: b.\nb: 'x', c?.";
    /// let error = ixml::check(grammar.as_bytes()).ok().unwrap_err();
    /// assert_eq!(
    ///     error.shown_in(grammar),
    ///     "refused 5: the grammar uses a name that has no rule, at line 2, column 9\n\
    ///      b: 'x', c?.\n        ^"
    /// );
    /// ```
    pub fn shown_in(self, grammar: impl AsRef<[u8]>) -> String {
        let Some(place) = self.place() else {
            return self.to_string();
        };
        let spot = Spot::at(grammar.as_ref(), place);
        format!("refused {}: {}, at {spot}", self.number(), self.sentence())
    }

    /// The same error with the bytes at fault, from the job's texts.
    ///
    /// ```
    /// let grammar = b"a: '\xE2\x28'.";
    /// let error = ixml::check(grammar).ok().unwrap_err().quoting(grammar, b"");
    /// assert_eq!(error.to_string(), "refused 2: the grammar is not UTF-8, at byte 4 (E2)");
    /// ```
    pub fn quoting(mut self, grammar: &[u8], record: &[u8]) -> Error {
        match &mut self {
            Error::GrammarNotUtf8 { byte, quote } | Error::GrammarCharacter { byte, quote } => {
                *quote = Quote::at(grammar, *byte);
            }
            Error::RecordNotUtf8 { byte, quote } | Error::RecordCharacter { byte, quote } => {
                *quote = Quote::at(record, *byte);
            }
            _ => {}
        }
        self
    }

    fn quote(self) -> Quote {
        match self {
            Error::GrammarNotUtf8 { quote, .. }
            | Error::GrammarCharacter { quote, .. }
            | Error::RecordNotUtf8 { quote, .. }
            | Error::RecordCharacter { quote, .. } => quote,
            _ => Quote::default(),
        }
    }
}

fn byte(answer: Answer) -> usize {
    answer.places.byte
}

fn place(answer: Answer) -> usize {
    answer.places.grammar
}

fn fault(answer: Answer) -> usize {
    answer.places.fault
}

fn version(answer: Answer) -> bool {
    answer.version
}

/// An answer alone does not have the texts.
fn unquoted(_: Answer) -> Quote {
    Quote::default()
}

/// The bytes at a fault: the first and those that continue it, at most four.
#[derive(Clone, Copy, Debug, Default, PartialEq, Eq, Hash)]
pub struct Quote {
    bytes: [u8; 4],
    length: usize,
}

impl Quote {
    fn at(text: &[u8], place: usize) -> Quote {
        let mut quote = Quote::default();
        for (cell, &byte) in quote.bytes.iter_mut().zip(text.iter().skip(place)) {
            if quote.length > 0 && byte & 0xC0 != 0x80 {
                break;
            }
            *cell = byte;
            quote.length += 1;
        }
        quote
    }

    /// Empty where the texts are not known.
    pub fn bytes(&self) -> &[u8] {
        &self.bytes[..self.length]
    }
}

impl fmt::Display for Error {
    fn fmt(&self, formatter: &mut fmt::Formatter<'_>) -> fmt::Result {
        write!(formatter, "refused {}: {}", self.number(), self.sentence())?;
        if let Some(byte) = self.byte() {
            write!(formatter, ", at byte {byte}")?;
        }
        if let Some(place) = self.place() {
            write!(formatter, ", at character {place}")?;
        }
        if let Error::NoReading { place, .. } = self {
            write!(formatter, ", after {place} characters")?;
        }
        match self.quote().bytes() {
            [] => Ok(()),
            bytes => {
                let words: Vec<String> = bytes.iter().map(|byte| format!("{byte:02X}")).collect();
                write!(formatter, " ({})", words.join(" "))
            }
        }
    }
}

impl std::error::Error for Error {}

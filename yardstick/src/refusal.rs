//! Why a job is refused, and where.

/// Where a job is at fault: 0 where the number names no place.
#[derive(Clone, Copy, Debug, Default, PartialEq, Eq)]
pub struct Places {
    /// Bytes from the first one of the grammar (2, 3) or of the record (12, 13).
    pub byte: usize,
    /// Characters of the record.
    pub fault: usize,
    /// Characters of the grammar.
    pub grammar: usize,
}

/// The refusals in the order in which they are judged, which is not the order
/// of their numbers: 24 stands right after 11, 29 right after 16. The last
/// three are the gate's; 28 is of tidying alone, where it stands before 23,
/// 25 of judging a list alone, where it stands in the place of 16 and 29, and 27
/// and 26 of reading in rounds, where they stand before and after 15.
#[derive(Clone, Copy, Debug, PartialEq, Eq, PartialOrd, Ord, Hash)]
pub enum Refusal {
    GrammarTooLong,
    /// With the byte place of the first sequence that is broken.
    GrammarNotUtf8(usize),
    /// With the byte place of the first character outside the alphabet.
    GrammarAlphabet(usize),
    NotIxml,
    /// From here on to `UnknownClass` with the place of the first character at fault.
    UndefinedName(usize),
    RepeatedRule(usize),
    HexTooLarge(usize),
    HexNoCharacter(usize),
    BackwardRange(usize),
    UnknownClass(usize),
    GrammarTooLarge,
    UnproductiveRule,
    RecordNotUtf8(usize),
    RecordAlphabet(usize),
    RecordTooLong,
    OtherState,
    TableTooShort,
    NotYet,
    /// With how many of the record's first characters begin some text.
    NoReading(usize),
    NoDerivation,
    ReadingTooLong,
    RepeatedAttribute,
    NotXmlName,
    NotXmlCharacter,
    AttributeRoot,
    DeletedRoot,
    AttributeXmlns,
    TidyTooLong,
    ResultTooLong,
    UnsoundGate,
    NoNumber,
    OutOfRange,
}

impl Refusal {
    /// The public number.
    pub const fn number(self) -> u32 {
        match self {
            Refusal::GrammarTooLong => 1,
            Refusal::GrammarNotUtf8(_) => 2,
            Refusal::GrammarAlphabet(_) => 3,
            Refusal::NotIxml => 4,
            Refusal::UndefinedName(_) => 5,
            Refusal::RepeatedRule(_) => 6,
            Refusal::HexTooLarge(_) => 7,
            Refusal::HexNoCharacter(_) => 8,
            Refusal::BackwardRange(_) => 9,
            Refusal::UnknownClass(_) => 10,
            Refusal::GrammarTooLarge => 11,
            Refusal::UnproductiveRule => 24,
            Refusal::RecordNotUtf8(_) => 12,
            Refusal::RecordAlphabet(_) => 13,
            Refusal::RecordTooLong => 14,
            Refusal::OtherState => 27,
            Refusal::TableTooShort => 15,
            Refusal::NotYet => 26,
            Refusal::NoReading(_) => 16,
            Refusal::NoDerivation => 25,
            Refusal::ReadingTooLong => 29,
            Refusal::RepeatedAttribute => 17,
            Refusal::NotXmlName => 18,
            Refusal::NotXmlCharacter => 19,
            Refusal::AttributeRoot => 20,
            Refusal::DeletedRoot => 21,
            Refusal::AttributeXmlns => 22,
            Refusal::TidyTooLong => 28,
            Refusal::ResultTooLong => 23,
            Refusal::UnsoundGate => 30,
            Refusal::NoNumber => 31,
            Refusal::OutOfRange => 32,
        }
    }

    /// The places that the answer carries.
    pub const fn places(self) -> Places {
        let byte = match self {
            Refusal::GrammarNotUtf8(place)
            | Refusal::GrammarAlphabet(place)
            | Refusal::RecordNotUtf8(place)
            | Refusal::RecordAlphabet(place) => place,
            _ => 0,
        };
        let grammar = match self {
            Refusal::UndefinedName(place)
            | Refusal::RepeatedRule(place)
            | Refusal::HexTooLarge(place)
            | Refusal::HexNoCharacter(place)
            | Refusal::BackwardRange(place)
            | Refusal::UnknownClass(place) => place,
            _ => 0,
        };
        let fault = match self {
            Refusal::NoReading(place) => place,
            _ => 0,
        };
        Places {
            byte,
            fault,
            grammar,
        }
    }
}

use crate::{Converted, Error, Reader};

/// Two derivations of an ambiguous record, each with its XML as the proved
/// library judges it.
#[derive(Clone, Debug, PartialEq, Eq)]
pub struct TwoReadings {
    /// The chosen reading.
    pub first: (Vec<u32>, Converted),
    /// Another one.
    pub second: (Vec<u32>, Converted),
}

/// The chosen reading of a record and another one, side by side; `None` if the
/// record has one derivation alone.
///
/// The other is found by an ordinary search, of which nothing is proved, and then
/// judged by the library: what is given here is a derivation, whoever found it.
/// The error is that of reading the record, or of writing one of the two as XML.
///
/// ```
/// let both = ixml::second_reading("a: b; c. b: 'x'. c: 'x'.", "x")?.expect("two");
/// assert_eq!(both.first.1.xml, "<a><b>x</b></a>");
/// assert_eq!(both.second.1.xml, "<a><c>x</c></a>");
///
/// assert_eq!(ixml::second_reading("a: 'x'.", "x")?, None);
/// # Ok::<(), ixml::Error>(())
/// ```
///
/// # Panics
///
/// If the search finds nothing where the library says that the record is
/// ambiguous, or what is no derivation.
pub fn second_reading(
    grammar: impl AsRef<[u8]>,
    record: impl AsRef<[u8]>,
) -> Result<Option<TwoReadings>, Error> {
    let (grammar, record) = (grammar.as_ref(), record.as_ref());
    let mut reader = Reader::new();
    let chosen = reader.read(grammar, record)?;
    if !chosen.ambiguous {
        return Ok(None);
    }
    let other = ixml_yardstick::second(grammar, record).expect("a second derivation");
    assert_ne!(
        other, chosen.numbers,
        "a derivation other than the chosen one"
    );
    let mut judged = |list: Vec<u32>| match reader.judge(grammar, record, &list) {
        Err(Error::NoDerivation) => panic!("{list:?} is no derivation"),
        outcome => outcome.map(|converted| (list, converted)),
    };
    Ok(Some(TwoReadings {
        first: judged(chosen.numbers)?,
        second: judged(other)?,
    }))
}

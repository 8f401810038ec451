//! From bytes to characters.

use crate::alphabet;
use crate::limits;
use crate::refusal::Refusal;

const BYTE_ORDER_MARK: char = '\u{FEFF}';

/// The grammar's text without its byte order mark; refusals 1 to 3.
pub fn grammar(bytes: &[u8]) -> Result<&str, Refusal> {
    if bytes.len() > limits::GRAMMAR_BYTES {
        return Err(Refusal::GrammarTooLong);
    }
    let all = std::str::from_utf8(bytes)
        .map_err(|broken| Refusal::GrammarNotUtf8(broken.valid_up_to()))?;
    let text = all.strip_prefix(BYTE_ORDER_MARK).unwrap_or(all);
    if let Some(place) = outside_alphabet(text) {
        return Err(Refusal::GrammarAlphabet(all.len() - text.len() + place));
    }
    Ok(text)
}

/// The record's characters; refusals 12 to 14. Each is judged over the whole
/// record before the next, so a long record still shows a bad last byte.
pub fn record(bytes: &[u8]) -> Result<Vec<char>, Refusal> {
    let text = std::str::from_utf8(bytes)
        .map_err(|broken| Refusal::RecordNotUtf8(broken.valid_up_to()))?;
    if let Some(place) = outside_alphabet(text) {
        return Err(Refusal::RecordAlphabet(place));
    }
    let characters: Vec<char> = text.chars().take(limits::RECORD_CHARACTERS + 1).collect();
    if characters.len() > limits::RECORD_CHARACTERS {
        return Err(Refusal::RecordTooLong);
    }
    Ok(characters)
}

/// The byte place of the first character outside the alphabet.
fn outside_alphabet(text: &str) -> Option<usize> {
    text.char_indices()
        .find(|&(_, character)| !alphabet::contains(character))
        .map(|(place, _)| place)
}

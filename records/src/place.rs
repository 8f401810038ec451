//! Places in a text as people count them: lines and columns from 1, the line
//! itself, and a mark under the place.

/// A place of a text.
#[derive(Clone, Debug, PartialEq, Eq)]
pub struct Spot {
    pub line: usize,
    pub column: usize,
    /// The line, control characters shown by their pictures.
    pub text: String,
    /// What stands under the line: room, then a mark.
    pub mark: String,
}

impl Spot {
    /// The place before the character with this number, from 0. At the end of
    /// the text it is after its last character.
    pub fn at(text: &str, place: usize) -> Spot {
        let begins = |c: &char| *c == '\n';
        let characters: Vec<char> = text.chars().collect();
        let place = place.min(characters.len());
        let before = &characters[..place];
        let line = 1 + before.iter().filter(|c| begins(c)).count();
        let start = before.iter().rposition(begins).map_or(0, |at| at + 1);
        let end = characters[place..].iter().position(begins);
        let end = end.map_or(characters.len(), |at| place + at);
        let shown: String = characters[start..end].iter().map(|&c| picture(c)).collect();
        let mut mark: String = characters[start..place]
            .iter()
            .filter_map(|&c| room(c))
            .collect();
        mark.push('^');
        Spot {
            line,
            column: place - start + 1,
            text: shown,
            mark,
        }
    }

    /// The place of a byte. What is not UTF-8 is shown as U+FFFD.
    pub fn at_byte(bytes: &[u8], byte: usize) -> Spot {
        let byte = byte.min(bytes.len());
        let before = String::from_utf8_lossy(&bytes[..byte]);
        let all = String::from_utf8_lossy(bytes);
        Spot::at(&all, before.chars().count())
    }
}

/// A control character's picture (U+2400 on); a tab and every other character is
/// itself.
fn picture(character: char) -> char {
    match character {
        '\t' => '\t',
        '\u{0}'..='\u{1F}' => char::from_u32(0x2400 + character as u32).unwrap_or('?'),
        '\u{7F}' => '\u{2421}',
        '\u{80}'..='\u{9F}' => '\u{FFFD}',
        _ => character,
    }
}

/// What takes up as much room as the character does.
fn room(character: char) -> Option<char> {
    match character {
        '\t' => Some('\t'),
        '\u{300}'..='\u{36F}' | '\u{FEFF}' => None,
        _ => Some(' '),
    }
}

#[cfg(test)]
mod tests {
    use super::*;

    fn spot(text: &str, place: usize) -> (usize, usize, String, String) {
        let spot = Spot::at(text, place);
        (spot.line, spot.column, spot.text, spot.mark)
    }

    #[test]
    fn lines_and_columns() {
        assert_eq!(spot("ab\ncd", 0), (1, 1, "ab".into(), "^".into()));
        assert_eq!(spot("ab\ncd", 2), (1, 3, "ab".into(), "  ^".into()));
        assert_eq!(spot("ab\ncd", 3), (2, 1, "cd".into(), "^".into()));
        assert_eq!(spot("ab\ncd", 5), (2, 3, "cd".into(), "  ^".into()));
        assert_eq!(spot("ab\n", 3), (2, 1, "".into(), "^".into()));
        assert_eq!(spot("", 7), (1, 1, "".into(), "^".into()));
    }

    #[test]
    fn the_mark_stands_under_the_place() {
        assert_eq!(spot("\ta\u{301}b", 3).3, "\t ^");
        assert_eq!(spot("a\rb", 2), (1, 3, "a\u{240D}b".into(), "  ^".into()));
    }

    #[test]
    fn bytes() {
        let spot = Spot::at_byte(b"\xC3\xA9x\nq\xFFz", 5);
        assert_eq!((spot.line, spot.column), (2, 2));
        assert_eq!(
            (spot.text.as_str(), spot.mark.as_str()),
            ("q\u{FFFD}z", " ^")
        );
    }
}

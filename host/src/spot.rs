use std::fmt;

const BYTE_ORDER_MARK: &str = "\u{FEFF}";

/// A character of a grammar, as a person looks for it: lines and columns count
/// from 1, columns in characters.
#[derive(Clone, Debug, PartialEq, Eq)]
pub struct Spot {
    pub line: usize,
    pub column: usize,
    /// The whole line, without its end.
    pub text: String,
}

impl Spot {
    /// The character that so many stand before, after a byte order mark.
    ///
    /// ```
    /// let spot = ixml::Spot::at("\u{FEFF}a: 'x'.\n\tb: c.".as_bytes(), 12);
    /// assert_eq!((spot.line, spot.column), (2, 5));
    /// assert_eq!(spot.to_string(), "line 2, column 5\n\tb: c.\n\t   ^");
    /// ```
    pub fn at(grammar: &[u8], place: usize) -> Spot {
        let text = String::from_utf8_lossy(grammar);
        let text = text.strip_prefix(BYTE_ORDER_MARK).unwrap_or(&text);
        let start = text.char_indices().nth(place);
        let before = &text[..start.map_or(text.len(), |(byte, _)| byte)];
        let line_start = before.rfind('\n').map_or(0, |end| end + 1);
        let line = text[line_start..].lines().next().unwrap_or("");
        Spot {
            line: before.matches('\n').count() + 1,
            column: before[line_start..].chars().count() + 1,
            text: line.to_string(),
        }
    }

    /// What stands before the mark: as wide as the line up to the place.
    fn margin(&self) -> String {
        let before = self.text.chars().take(self.column - 1);
        before.filter_map(blank).collect()
    }
}

/// A blank as wide as the character; a combining mark has no width.
fn blank(character: char) -> Option<char> {
    match character {
        '\t' => Some('\t'),
        '\u{300}'..='\u{36F}' => None,
        _ => Some(' '),
    }
}

impl fmt::Display for Spot {
    fn fmt(&self, formatter: &mut fmt::Formatter<'_>) -> fmt::Result {
        let Spot { line, column, text } = self;
        write!(
            formatter,
            "line {line}, column {column}\n{text}\n{}^",
            self.margin()
        )
    }
}

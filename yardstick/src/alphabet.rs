//! The characters that grammars and records may hold, and the place of each among them.

/// Ascending spans that do not meet, both ends included.
pub const SPANS: [(u32, u32); 3] = [(0x0, 0x17F), (0x300, 0x36F), (0x203F, 0x2040)];

/// How many characters there are.
pub const KNOWN: usize = 498;

/// The place of a code point, if it is in the alphabet.
pub const fn place(code: u32) -> Option<usize> {
    let mut before = 0;
    let mut span = 0;
    while span < SPANS.len() {
        let (first, last) = SPANS[span];
        if first <= code && code <= last {
            return Some((before + code - first) as usize);
        }
        before += last + 1 - first;
        span += 1;
    }
    None
}

pub fn contains(character: char) -> bool {
    place(character as u32).is_some()
}

/// The characters in their order.
pub fn characters() -> impl Iterator<Item = char> + Clone {
    SPANS
        .into_iter()
        .flat_map(|(first, last)| first..=last)
        .filter_map(char::from_u32)
}

#[cfg(test)]
mod tests {
    use super::*;

    #[test]
    fn places_are_counted_through() {
        let places: Vec<usize> = characters()
            .map(|character| place(character as u32).unwrap())
            .collect();
        assert!(places.into_iter().eq(0..KNOWN));
        for code in [0x180, 0x2FF, 0x370, 0x203E, 0x2041, 0xFEFF, u32::MAX] {
            assert_eq!(place(code), None, "U+{code:04X}");
        }
    }
}

//! Sets of the characters that a record may hold.

use crate::alphabet;

const WORDS: usize = alphabet::KNOWN.div_ceil(64);

/// The bits of the last word that have a place.
const LAST_WORD: u64 = u64::MAX >> (WORDS * 64 - alphabet::KNOWN);

/// A set of characters of the alphabet, a bit for each place.
#[derive(Clone, Copy, Debug, PartialEq, Eq)]
pub struct CharSet([u64; WORDS]);

impl CharSet {
    pub const EMPTY: CharSet = CharSet([0; WORDS]);

    /// Adds a code point; one outside the alphabet has no effect, since no record holds it.
    pub const fn with(mut self, code: u32) -> CharSet {
        if let Some(place) = alphabet::place(code) {
            self.0[place / 64] |= 1 << (place % 64);
        }
        self
    }

    pub fn insert(&mut self, code: u32) {
        *self = self.with(code);
    }

    pub fn insert_range(&mut self, from: u32, to: u32) {
        for (first, last) in alphabet::SPANS {
            let (from, to) = (from.max(first), to.min(last));
            if from > to {
                continue;
            }
            if let (Some(first), Some(last)) = (alphabet::place(from), alphabet::place(to)) {
                self.insert_places(first, last);
            }
        }
    }

    /// Adds the characters from one place to another, a word at a time.
    fn insert_places(&mut self, first: usize, last: usize) {
        for word in first / 64..=last / 64 {
            let from = if word == first / 64 { first % 64 } else { 0 };
            let to = if word == last / 64 { last % 64 } else { 63 };
            self.0[word] |= (u64::MAX >> (63 - to)) & (u64::MAX << from);
        }
    }

    pub fn union(mut self, other: CharSet) -> CharSet {
        for (word, more) in self.0.iter_mut().zip(other.0) {
            *word |= more;
        }
        self
    }

    /// The characters of the alphabet that are not in it.
    pub fn complement(self) -> CharSet {
        let mut words = self.0.map(|word| !word);
        words[WORDS - 1] &= LAST_WORD;
        CharSet(words)
    }

    pub fn is_empty(&self) -> bool {
        self.0 == [0; WORDS]
    }

    pub fn contains(&self, character: char) -> bool {
        alphabet::place(character as u32)
            .is_some_and(|place| self.0[place / 64] >> (place % 64) & 1 == 1)
    }
}

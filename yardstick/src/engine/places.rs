//! Sets of places in a record.

use std::ops::{BitAnd, BitOr, BitOrAssign, Index, IndexMut, Not};

use crate::limits::RECORD_CHARACTERS;

/// Enough words for the longest record.
pub const WORDS: usize = words(RECORD_CHARACTERS);

/// How many words have bits for the places 0 to n of a record of so many
/// characters.
pub const fn words(characters: usize) -> usize {
    characters / 64 + 1
}

/// A set of places between characters, as bits. With fewer words for a shorter
/// record there is less to clear and to go through.
#[derive(Clone, Copy, Debug, PartialEq, Eq)]
pub struct Places<const W: usize = WORDS>([u64; W]);

impl<const W: usize> Default for Places<W> {
    fn default() -> Places<W> {
        Places::NONE
    }
}

impl<const W: usize> Places<W> {
    pub const NONE: Places<W> = Places([0; W]);

    pub fn one(place: usize) -> Places<W> {
        let mut places = Places::NONE;
        places.insert(place);
        places
    }

    /// The places before one.
    pub fn before(place: usize) -> Places<W> {
        let mut places = Places([u64::MAX; W]);
        places.0[place / 64] = (1 << (place % 64)) - 1;
        for word in &mut places.0[place / 64 + 1..] {
            *word = 0;
        }
        places
    }

    pub fn insert(&mut self, place: usize) {
        self.0[place / 64] |= 1 << (place % 64);
    }

    pub fn remove(&mut self, place: usize) {
        self.0[place / 64] &= !(1 << (place % 64));
    }

    pub fn contains(&self, place: usize) -> bool {
        self.0[place / 64] >> (place % 64) & 1 == 1
    }

    pub fn is_empty(&self) -> bool {
        self.0.iter().all(|&word| word == 0)
    }

    /// The first place.
    pub fn first(&self) -> Option<usize> {
        self.iter().next()
    }

    /// The last place.
    pub fn last(&self) -> Option<usize> {
        let index = self.0.iter().rposition(|&word| word != 0)?;
        Some(index * 64 + 63 - self.0[index].leading_zeros() as usize)
    }

    /// Where the unbroken run of places that ends with `last` begins; behind
    /// `last` if that is not in it.
    pub fn run_to(&self, last: usize) -> usize {
        let mut begin = last + 1;
        loop {
            let (index, above) = ((begin - 1) / 64, 63 - (begin - 1) % 64);
            let ones = (self.0[index] << above).leading_ones() as usize;
            begin -= ones;
            if ones + above < 64 || begin == 0 {
                return begin;
            }
        }
    }

    /// How many places there are.
    pub fn count(&self) -> u32 {
        self.0.iter().map(|word| word.count_ones()).sum()
    }

    /// Every place moved right by `distance` characters. Places beyond the
    /// last bit are lost; callers only move places that stay in the record.
    pub fn later(self, distance: usize) -> Places<W> {
        let (skip, bits) = (distance / 64, distance % 64);
        let mut moved = Places::NONE;
        for word in skip..W {
            moved.0[word] = self.0[word - skip] << bits;
            if bits > 0 && word > skip {
                moved.0[word] |= self.0[word - skip - 1] >> (64 - bits);
            }
        }
        moved
    }

    /// Every place moved left by `distance` characters.
    pub fn earlier(self, distance: usize) -> Places<W> {
        let (skip, bits) = (distance / 64, distance % 64);
        let mut moved = Places::NONE;
        for word in skip..W {
            moved.0[word - skip] = self.0[word] >> bits;
            if bits > 0 && word + 1 < W {
                moved.0[word - skip] |= self.0[word + 1] << (64 - bits);
            }
        }
        moved
    }

    /// The places in ascending order.
    pub fn iter(self) -> Iter<W> {
        Iter {
            word: self.0[0],
            index: 0,
            words: self.0,
        }
    }
}

/// Takes the lowest bit again and again.
pub struct Iter<const W: usize> {
    /// What is left of the word at `index`.
    word: u64,
    index: usize,
    words: [u64; W],
}

impl<const W: usize> Iterator for Iter<W> {
    type Item = usize;

    fn next(&mut self) -> Option<usize> {
        while self.word == 0 {
            self.index += 1;
            self.word = *self.words.get(self.index)?;
        }
        let bit = self.word.trailing_zeros() as usize;
        self.word &= self.word - 1;
        Some(self.index * 64 + bit)
    }
}

impl<const W: usize> BitOr for Places<W> {
    type Output = Places<W>;

    fn bitor(mut self, other: Places<W>) -> Places<W> {
        self |= other;
        self
    }
}

impl<const W: usize> BitOrAssign for Places<W> {
    fn bitor_assign(&mut self, other: Places<W>) {
        for (word, more) in self.0.iter_mut().zip(other.0) {
            *word |= more;
        }
    }
}

impl<const W: usize> BitAnd for Places<W> {
    type Output = Places<W>;

    fn bitand(mut self, other: Places<W>) -> Places<W> {
        for (word, mask) in self.0.iter_mut().zip(other.0) {
            *word &= mask;
        }
        self
    }
}

impl<const W: usize> Not for Places<W> {
    type Output = Places<W>;

    fn not(self) -> Places<W> {
        Places(self.0.map(|word| !word))
    }
}

/// A set of places for each row and place: row `r` of a grid often answers,
/// for a span that starts at `i`, where it may end.
#[derive(Clone, Debug)]
pub struct Grid<const W: usize = WORDS> {
    width: usize,
    cells: Vec<Places<W>>,
}

impl<const W: usize> Grid<W> {
    pub fn new(rows: usize, width: usize) -> Grid<W> {
        Grid {
            width,
            // Zeros are what the allocator clears by itself.
            cells: vec![[0; W]; rows * width].into_iter().map(Places).collect(),
        }
    }

    pub fn row(&self, row: usize) -> &[Places<W>] {
        &self.cells[row * self.width..][..self.width]
    }

    pub fn row_mut(&mut self, row: usize) -> &mut [Places<W>] {
        &mut self.cells[row * self.width..][..self.width]
    }

    /// The places at which a row has all places that follow.
    pub fn full(&self, row: usize) -> Places<W> {
        let mut places = Places::NONE;
        for place in 0..self.width {
            if self[(row, place)].run_to(self.width - 1) <= place + 1 {
                places.insert(place);
            }
        }
        places
    }

    /// What a row has at any of these places. The row must have nothing at a
    /// place that is before it: then a place gives nothing new if all that
    /// follow it are there already.
    pub fn union(&self, row: usize, places: Places<W>) -> Places<W> {
        let last = self.width - 1;
        let mut union = Places::NONE;
        let mut full = self.width;
        let row = self.row(row);
        for place in places.iter() {
            if place >= full {
                break;
            }
            union |= row[place];
            if union.contains(last) {
                full = union.run_to(last);
            }
        }
        union
    }
}

impl<const W: usize> Index<(usize, usize)> for Grid<W> {
    type Output = Places<W>;

    fn index(&self, (row, place): (usize, usize)) -> &Places<W> {
        &self.cells[row * self.width + place]
    }
}

impl<const W: usize> IndexMut<(usize, usize)> for Grid<W> {
    fn index_mut(&mut self, (row, place): (usize, usize)) -> &mut Places<W> {
        &mut self.cells[row * self.width + place]
    }
}

#[cfg(test)]
mod tests {
    use super::*;

    #[test]
    fn moves_cross_words() {
        for place in 0..=RECORD_CHARACTERS {
            for other in place..=RECORD_CHARACTERS {
                let distance = other - place;
                let [one, another]: [Places; 2] = [place, other].map(Places::one);
                assert_eq!(one.later(distance), another);
                assert_eq!(another.earlier(distance), one);
            }
            assert!(Places::<WORDS>::one(place).earlier(place + 1).is_empty());
        }
    }

    #[test]
    fn runs_cross_words() {
        for last in [0, 5, 63, 64, 127, 128, RECORD_CHARACTERS] {
            let mut places: Places = Places::NONE;
            for place in (0..=last).rev() {
                assert_eq!(places.run_to(last), place + 1);
                places.insert(place);
            }
            assert_eq!(places.run_to(last), 0);
            places.remove(last / 2);
            assert_eq!(places.run_to(last), last / 2 + 1);
        }
    }

    #[test]
    fn places_before_one() {
        for place in 0..=RECORD_CHARACTERS {
            let before: Places = Places::before(place);
            assert!(before.iter().eq(0..place));
        }
    }

    #[test]
    fn unions_of_rows_that_are_full() {
        let mut grid: Grid = Grid::new(2, 6);
        for (place, others) in [(0, &[1, 2, 4][..]), (1, &[3, 5]), (2, &[4, 5]), (4, &[5])] {
            for &other in others {
                grid[(1, place)].insert(other);
            }
        }
        assert!(grid.full(1).iter().eq([4, 5]));
        let union = |places: &[usize]| {
            let places = places
                .iter()
                .fold(Places::NONE, |set, &place| set | Places::one(place));
            grid.union(1, places).iter().collect::<Vec<_>>()
        };
        assert_eq!(union(&[0, 1]), [1, 2, 3, 4, 5]);
        assert_eq!(union(&[0, 2, 3, 4]), [1, 2, 4, 5]);
        assert_eq!(union(&[3]), []);
    }

    #[test]
    fn iterates_in_order() {
        let mut places: Places = Places::NONE;
        for place in [0, 5, 63, 64, 100, 200] {
            places.insert(place);
        }
        assert_eq!(places.count(), 6);
        assert_eq!(places.iter().collect::<Vec<_>>(), [0, 5, 63, 64, 100, 200]);
    }
}

//! Memory that is lent to a call and looked at afterwards.

use std::ops::Range;

/// Cells on each side of what is lent.
const GUARDS: usize = 64;

/// A cell of a table or a buffer.
pub trait Cell: Copy + PartialEq {
    /// A pattern's number at a place.
    fn pattern(seed: u32, place: usize) -> Self;
}

impl Cell for u32 {
    fn pattern(seed: u32, place: usize) -> u32 {
        (place as u32).wrapping_mul(0x9E37_79B1) ^ seed
    }
}

impl Cell for u64 {
    fn pattern(seed: u32, place: usize) -> u64 {
        u64::from(u32::pattern(seed, place)) << 32 | u64::from(u32::pattern(!seed, place))
    }
}

impl Cell for u8 {
    fn pattern(seed: u32, place: usize) -> u8 {
        (u32::pattern(seed, place) >> 24) as u8
    }
}

/// Cells filled with a pattern: those to lend, exactly as many as asked for,
/// between guards.
pub struct Lent<T> {
    cells: Vec<T>,
    length: usize,
    seed: u32,
}

impl<T: Cell> Lent<T> {
    pub fn new(length: usize, seed: u32) -> Lent<T> {
        let mut lent = Lent {
            cells: Vec::new(),
            length: 0,
            seed,
        };
        lent.renew(length, seed);
        lent
    }

    /// Fills the same memory anew.
    pub fn renew(&mut self, length: usize, seed: u32) {
        self.cells.clear();
        let places = 0..length + 2 * GUARDS;
        self.cells
            .extend(places.map(|place| T::pattern(seed, place)));
        self.length = length;
        self.seed = seed;
    }

    /// Keeps what the cells hold, as far as there are any, and makes new guards.
    #[allow(dead_code)] // Only tests lend memory twice.
    pub fn reuse(&mut self, length: usize) {
        let held = self.cells.len();
        let seed = self.seed;
        self.length = length;
        self.cells
            .resize(length + 2 * GUARDS, T::pattern(seed, held));
        for place in (0..GUARDS).chain(GUARDS + length..self.cells.len()) {
            self.cells[place] = T::pattern(seed, place);
        }
    }

    fn lent(&self) -> Range<usize> {
        GUARDS..GUARDS + self.length
    }

    pub fn lend(&mut self) -> &mut [T] {
        let lent = self.lent();
        &mut self.cells[lent]
    }

    pub fn cells(&self) -> &[T] {
        &self.cells[self.lent()]
    }

    /// Whether a guard was changed.
    pub fn guards_touched(&self) -> bool {
        let lent = self.lent();
        self.differs(0..lent.start) || self.differs(lent.end..self.cells.len())
    }

    /// Whether a cell was changed, guards included, other than the first ones
    /// of those lent.
    pub fn touched_behind(&self, filled: usize) -> bool {
        let lent = self.lent();
        let filled = lent.start + filled.min(self.length);
        self.differs(0..lent.start) || self.differs(filled..self.cells.len())
    }

    fn differs(&self, range: Range<usize>) -> bool {
        let places = range.clone().zip(&self.cells[range]);
        places.fold(false, |differs, (place, &cell)| {
            differs | (cell != T::pattern(self.seed, place))
        })
    }
}

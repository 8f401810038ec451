//! Many lists, most of them short, in one piece of memory.

/// Lists by number, of which each gives the item first that came last.
pub struct Lists<T> {
    /// For each list its first entry; `NONE` if it is empty.
    firsts: Vec<u32>,
    /// The items, each with the entry behind it.
    entries: Vec<(T, u32)>,
}

const NONE: u32 = u32::MAX;

impl<T: Copy> Lists<T> {
    pub fn new(lists: usize) -> Lists<T> {
        Lists {
            firsts: vec![NONE; lists],
            entries: Vec::new(),
        }
    }

    pub fn push(&mut self, list: usize, item: T) {
        let first = &mut self.firsts[list];
        self.entries.push((item, *first));
        *first = self.entries.len() as u32 - 1;
    }

    /// Takes a list's first item, and its memory too if that is the last entry.
    pub fn pop(&mut self, list: usize) -> Option<T> {
        let entry = self.firsts[list] as usize;
        let (item, behind) = *self.entries.get(entry)?;
        self.firsts[list] = behind;
        if entry + 1 == self.entries.len() {
            self.entries.pop();
        }
        Some(item)
    }

    /// The items of a list.
    pub fn iter(&self, list: usize) -> impl Iterator<Item = T> + '_ {
        let first = self.at(self.first(list));
        std::iter::successors(first, |&(_, behind)| self.at(behind)).map(|(item, _)| item)
    }

    /// Where to begin going through a list with `at`.
    pub fn first(&self, list: usize) -> u32 {
        self.firsts[list]
    }

    /// The item of an entry, and the entry behind it; nothing at the list's end.
    pub fn at(&self, entry: u32) -> Option<(T, u32)> {
        self.entries.get(entry as usize).copied()
    }
}

#[cfg(test)]
mod tests {
    use super::*;

    #[test]
    fn lists_are_apart() {
        let mut lists = Lists::new(2);
        for item in 0..6 {
            lists.push(item % 2, item);
        }
        assert_eq!(lists.pop(0), Some(4));
        lists.push(0, 8);
        assert_eq!(lists.iter(0).collect::<Vec<_>>(), [8, 2, 0]);
        assert_eq!(
            [(); 4].map(|()| lists.pop(0)),
            [Some(8), Some(2), Some(0), None]
        );
        assert_eq!(
            [(); 4].map(|()| lists.pop(1)),
            [Some(5), Some(3), Some(1), None]
        );
    }
}

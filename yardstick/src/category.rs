//! General categories of the alphabet's characters, and the classes made of them.

use crate::alphabet;
use crate::charset::CharSet;

macro_rules! categories {
    ($($name:ident),*) => {
        /// The thirty general categories of Unicode.
        #[derive(Clone, Copy, Debug, PartialEq, Eq, Hash)]
        pub enum Category { $($name),* }

        impl Category {
            pub const ALL: [Category; 30] = [$(Category::$name),*];

            /// The two letters that Unicode uses.
            pub const fn code(self) -> &'static str {
                match self { $(Category::$name => stringify!($name)),* }
            }
        }
    };
}

categories!(
    Lu, Ll, Lt, Lm, Lo, Mn, Mc, Me, Nd, Nl, No, Pc, Pd, Ps, Pe, Pi, Pf, Po, Sm, Sc, Sk, So, Zs, Zl,
    Zp, Cc, Cf, Cs, Co, Cn
);

/// Which numbers of a range are meant.
#[derive(Clone, Copy)]
pub enum Part {
    Each,
    Even,
    Odd,
}

impl Part {
    const fn takes(self, code: u32) -> bool {
        match self {
            Part::Each => true,
            Part::Even => code % 2 == 0,
            Part::Odd => code % 2 == 1,
        }
    }
}

/// The ranges of each category that occurs in the alphabet.
pub const RANGES: &[(Category, Part, &[(u32, u32)])] = {
    use Category::*;
    use Part::*;
    &[
        (Cc, Each, &[(0x00, 0x1F), (0x7F, 0x9F)]),
        (Zs, Each, &[(0x20, 0x20), (0xA0, 0xA0)]),
        (
            Po,
            Each,
            &[
                (0x21, 0x23),
                (0x25, 0x27),
                (0x2A, 0x2A),
                (0x2C, 0x2C),
                (0x2E, 0x2F),
                (0x3A, 0x3B),
                (0x3F, 0x40),
                (0x5C, 0x5C),
                (0xA1, 0xA1),
                (0xA7, 0xA7),
                (0xB6, 0xB7),
                (0xBF, 0xBF),
            ],
        ),
        (Sc, Each, &[(0x24, 0x24), (0xA2, 0xA5)]),
        (Ps, Each, &[(0x28, 0x28), (0x5B, 0x5B), (0x7B, 0x7B)]),
        (Pe, Each, &[(0x29, 0x29), (0x5D, 0x5D), (0x7D, 0x7D)]),
        (
            Sm,
            Each,
            &[
                (0x2B, 0x2B),
                (0x3C, 0x3E),
                (0x7C, 0x7C),
                (0x7E, 0x7E),
                (0xAC, 0xAC),
                (0xB1, 0xB1),
                (0xD7, 0xD7),
                (0xF7, 0xF7),
            ],
        ),
        (Pd, Each, &[(0x2D, 0x2D)]),
        (Nd, Each, &[(0x30, 0x39)]),
        (Lu, Each, &[(0x41, 0x5A), (0xC0, 0xD6), (0xD8, 0xDE)]),
        (
            Sk,
            Each,
            &[
                (0x5E, 0x5E),
                (0x60, 0x60),
                (0xA8, 0xA8),
                (0xAF, 0xAF),
                (0xB4, 0xB4),
                (0xB8, 0xB8),
            ],
        ),
        (Pc, Each, &[(0x5F, 0x5F)]),
        (
            Ll,
            Each,
            &[(0x61, 0x7A), (0xB5, 0xB5), (0xDF, 0xF6), (0xF8, 0xFF)],
        ),
        (
            So,
            Each,
            &[(0xA6, 0xA6), (0xA9, 0xA9), (0xAE, 0xAE), (0xB0, 0xB0)],
        ),
        (Lo, Each, &[(0xAA, 0xAA), (0xBA, 0xBA)]),
        (Pi, Each, &[(0xAB, 0xAB)]),
        (Cf, Each, &[(0xAD, 0xAD)]),
        (No, Each, &[(0xB2, 0xB3), (0xB9, 0xB9), (0xBC, 0xBE)]),
        (Pf, Each, &[(0xBB, 0xBB)]),
        (Mn, Each, &[(0x300, 0x36F)]),
        (Pc, Each, &[(0x203F, 0x2040)]),
        (Ll, Each, &[(0x138, 0x138), (0x149, 0x149), (0x17F, 0x17F)]),
        (Lu, Each, &[(0x178, 0x178)]),
        (Lu, Even, &[(0x100, 0x137), (0x14A, 0x177)]),
        (Ll, Odd, &[(0x100, 0x137), (0x14A, 0x177)]),
        (Lu, Odd, &[(0x139, 0x148), (0x179, 0x17E)]),
        (Ll, Even, &[(0x139, 0x148), (0x179, 0x17E)]),
    ]
};

/// One entry for each place of the alphabet, filled from `RANGES` at compile time.
pub const TABLE: [Category; alphabet::KNOWN] = table();

/// The code points of each category, in the order of `Category::ALL`.
const MEMBERS: [CharSet; 30] = members();

const fn table() -> [Category; alphabet::KNOWN] {
    let mut table = [Category::Cn; alphabet::KNOWN];
    let mut row = 0;
    while row < RANGES.len() {
        let (category, part, ranges) = RANGES[row];
        let mut range = 0;
        while range < ranges.len() {
            let (mut code, last) = ranges[range];
            while code <= last {
                if let (true, Some(place)) = (part.takes(code), alphabet::place(code)) {
                    table[place] = category;
                }
                code += 1;
            }
            range += 1;
        }
        row += 1;
    }
    table
}

const fn members() -> [CharSet; 30] {
    let mut members = [CharSet::EMPTY; 30];
    let mut span = 0;
    while span < alphabet::SPANS.len() {
        let (mut code, last) = alphabet::SPANS[span];
        while code <= last {
            if let Some(place) = alphabet::place(code) {
                let category = TABLE[place] as usize;
                members[category] = members[category].with(code);
            }
            code += 1;
        }
        span += 1;
    }
    members
}

/// The category of a code point, or `None` outside the alphabet.
pub fn category(code: u32) -> Option<Category> {
    alphabet::place(code).map(|place| TABLE[place])
}

/// The record characters of a class: one of the seven first letters, `LC`, or
/// a two-letter category. `None` if there is no such class.
pub fn class(code: &str) -> Option<CharSet> {
    let belongs = |category: &Category| match code {
        "LC" => matches!(category, Category::Lu | Category::Ll | Category::Lt),
        _ => category.code().starts_with(code),
    };
    let mut found = None;
    for category in Category::ALL.iter().filter(|category| belongs(category)) {
        let set = found.unwrap_or(CharSet::EMPTY);
        found = Some(set.union(MEMBERS[*category as usize]));
    }
    found
}

pub fn is_control(character: char) -> bool {
    category(character as u32) == Some(Category::Cc)
}

pub fn is_space(character: char) -> bool {
    category(character as u32) == Some(Category::Zs)
}

pub fn is_letter(character: char) -> bool {
    use Category::*;
    matches!(category(character as u32), Some(Lu | Ll | Lt | Lm | Lo))
}

pub fn is_digit_or_combining(character: char) -> bool {
    use Category::*;
    matches!(category(character as u32), Some(Nd | Mn))
}

#[cfg(test)]
mod tests {
    use super::*;

    /// The ranges cover every code point once, and the table agrees with them.
    #[test]
    fn table_agrees_with_the_ranges() {
        for character in alphabet::characters() {
            let code = character as u32;
            let holders: Vec<Category> = RANGES
                .iter()
                .filter(|(_, part, ranges)| {
                    part.takes(code) && ranges.iter().any(|&(a, b)| (a..=b).contains(&code))
                })
                .map(|&(category, _, _)| category)
                .collect();
            assert_eq!(
                Some(holders),
                category(code).map(|it| vec![it]),
                "U+{code:04X}"
            );
        }
    }

    #[test]
    fn classes_are_unions_of_categories() {
        let known = |code: &str| class(code).is_some();
        for code in ["L", "M", "N", "P", "S", "Z", "C", "LC", "Cn", "Zl", "Me"] {
            assert!(known(code), "{code}");
        }
        for code in ["A", "Lc", "LL", "Xx", "Ld", "CC"] {
            assert!(!known(code), "{code}");
        }
        for character in alphabet::characters() {
            let category = category(character as u32).unwrap();
            for name in [&category.code()[..1], category.code()] {
                assert!(class(name).unwrap().contains(character));
            }
            let cased = matches!(category, Category::Lu | Category::Ll | Category::Lt);
            assert_eq!(class("LC").unwrap().contains(character), cased);
        }
    }
}

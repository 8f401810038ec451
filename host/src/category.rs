use std::fmt;

use crate::ffi;

macro_rules! categories {
    ($($name:ident)*) => {
        /// A general category of Unicode. As a number it is its place in the
        /// list of thirty, which is what the library's call gives.
        #[derive(Clone, Copy, Debug, PartialEq, Eq, Hash)]
        pub enum Category { $($name),* }

        impl Category {
            /// All thirty, in the list's order.
            pub const ALL: [Category; 30] = [$(Category::$name),*];

            /// The two letters that Unicode uses.
            pub const fn code(self) -> &'static str {
                match self { $(Category::$name => stringify!($name)),* }
            }
        }
    };
}

categories! {
    Lu Ll Lt Lm Lo Mn Mc Me Nd Nl No Pc Pd Ps Pe Pi Pf Po Sm Sc Sk So Zs Zl Zp Cc Cf Cs Co Cn
}

impl fmt::Display for Category {
    fn fmt(&self, formatter: &mut fmt::Formatter<'_>) -> fmt::Result {
        formatter.pad(self.code())
    }
}

/// The category of a code point. Known are U+0000 to U+017F, U+0300 to U+036F,
/// U+203F and U+2040.
///
/// ```
/// use ixml::{category, Category};
///
/// assert_eq!(category('ř' as u32), Some(Category::Ll));
/// assert_eq!(category('€' as u32), None);
/// ```
pub fn category(code: u32) -> Option<Category> {
    // SAFETY: the call takes every number.
    let place = unsafe { ffi::ixml_category(code) };
    Category::ALL.get(place as usize).copied()
}

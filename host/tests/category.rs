//! The category call on every code point, and beyond.

mod common;

use ixml::{category, ffi, Category};

/// The number that the yardstick's category stands for.
fn expected(code: u32) -> u32 {
    let number = |category: ixml_yardstick::Category| category as u32;
    ixml_yardstick::category(code).map_or(30, number)
}

#[test]
fn every_number_agrees_with_the_yardstick() {
    let beyond = (0..32).flat_map(|bit| {
        let power = 1u32 << bit;
        [power.wrapping_sub(1), power, power + 0x41 % power, !power]
    });
    for code in (0..=0x11_0000).chain(beyond) {
        // SAFETY: the call takes every number.
        let number = unsafe { ffi::ixml_category(code) };
        assert_eq!(number, expected(code), "{code:#x}");
        assert_eq!(category(code).map_or(30, |known| known as u32), number);
    }
}

#[test]
fn vectors() {
    let vectors = common::vectors::categories();
    assert!(vectors.len() > 300);
    for (code, name) in vectors {
        let known = category(code).map_or("-".to_string(), |it| it.to_string());
        assert_eq!(known, name, "{code:#x}");
    }
}

#[test]
fn categories_have_the_names_of_the_list() {
    let list =
        "Lu Ll Lt Lm Lo Mn Mc Me Nd Nl No Pc Pd Ps Pe Pi Pf Po Sm Sc Sk So Zs Zl Zp Cc Cf Cs Co Cn";
    let names: Vec<String> = Category::ALL.iter().map(Category::to_string).collect();
    assert_eq!(names.join(" "), list);
    assert_eq!(category('A' as u32), Some(Category::Lu));
    assert_eq!(category(0x180), None);
}

//! The calls as `include/ixml.h` and `include/ixml_gate.h` declare them.
//!
//! Each slice is a pointer and a length. The functions at the crate's root are
//! the same calls, safe for every caller.

use crate::{Answer, Progress, State};

/// The answer of a gate: 0 and a verdict (1 inside, 2 swapped, 3 suspect), or
/// the number of a refusal and 0.
#[repr(C)]
#[derive(Clone, Copy, Debug, PartialEq, Eq)]
pub struct GateAnswer {
    pub number: u32,
    pub verdict: u32,
}

/// The value of a number text: 0 and the value, or 31 and the value 0.
#[repr(C)]
#[derive(Clone, Copy, Debug, PartialEq)]
pub struct NumberAnswer {
    pub number: u32,
    pub value: f64,
}

extern "C" {
    pub fn ixml_gate_box(
        south: f64,
        north: f64,
        west: f64,
        east: f64,
        lat: *const u8,
        lat_length: usize,
        lon: *const u8,
        lon_length: usize,
    ) -> GateAnswer;
    pub fn ixml_gate_band(
        south: f64,
        north: f64,
        lat: *const u8,
        lat_length: usize,
        lon: *const u8,
        lon_length: usize,
    ) -> GateAnswer;
    pub fn ixml_gate_anywhere(
        lat: *const u8,
        lat_length: usize,
        lon: *const u8,
        lon_length: usize,
    ) -> GateAnswer;
    pub fn ixml_number(text: *const u8, text_length: usize) -> NumberAnswer;

    pub fn ixml_check(grammar: *const u8, grammar_length: usize) -> Answer;
    pub fn ixml_tidy(
        grammar: *const u8,
        grammar_length: usize,
        result: *mut u8,
        result_length: usize,
    ) -> Answer;
    pub fn ixml_category(code: u32) -> u32;
    pub fn ixml_read(
        grammar: *const u8,
        grammar_length: usize,
        record: *const u8,
        record_length: usize,
        main_table: *mut u32,
        main_table_length: usize,
        grammar_table: *mut u32,
        grammar_table_length: usize,
        result: *mut u32,
        result_length: usize,
    ) -> Answer;
    pub fn ixml_read_plain(
        grammar: *const u8,
        grammar_length: usize,
        record: *const u8,
        record_length: usize,
        main_table: *mut u32,
        main_table_length: usize,
        grammar_table: *mut u32,
        grammar_table_length: usize,
        result: *mut u32,
        result_length: usize,
    ) -> Answer;
    pub fn ixml_convert(
        grammar: *const u8,
        grammar_length: usize,
        record: *const u8,
        record_length: usize,
        main_table: *mut u32,
        main_table_length: usize,
        grammar_table: *mut u32,
        grammar_table_length: usize,
        result: *mut u8,
        result_length: usize,
    ) -> Answer;
    pub fn ixml_judge(
        grammar: *const u8,
        grammar_length: usize,
        record: *const u8,
        record_length: usize,
        list: *const u32,
        list_length: usize,
        grammar_table: *const u32,
        grammar_table_length: usize,
        scratch: *mut u64,
        scratch_length: usize,
        result: *mut u8,
        result_length: usize,
    ) -> Answer;
    pub fn ixml_start(
        grammar: *const u8,
        grammar_length: usize,
        record: *const u8,
        record_length: usize,
        main_table: *mut u32,
        main_table_length: usize,
        grammar_table: *const u32,
        grammar_table_length: usize,
        state: *mut State,
    ) -> Progress;
    pub fn ixml_round(
        grammar: *const u8,
        grammar_length: usize,
        record: *const u8,
        record_length: usize,
        main_table: *mut u32,
        main_table_length: usize,
        grammar_table: *const u32,
        grammar_table_length: usize,
        state: *mut State,
    ) -> Progress;
    pub fn ixml_finish_read(
        grammar: *const u8,
        grammar_length: usize,
        record: *const u8,
        record_length: usize,
        main_table: *const u32,
        main_table_length: usize,
        grammar_table: *const u32,
        grammar_table_length: usize,
        state: *const State,
        result: *mut u32,
        result_length: usize,
    ) -> Progress;
    pub fn ixml_finish_convert(
        grammar: *const u8,
        grammar_length: usize,
        record: *const u8,
        record_length: usize,
        main_table: *const u32,
        main_table_length: usize,
        grammar_table: *const u32,
        grammar_table_length: usize,
        state: *const State,
        result: *mut u8,
        result_length: usize,
    ) -> Progress;
}

/// A call with what is lent to it: `of` a slice that is read and `into` one that
/// is written go as a pointer and a length, `with` goes as it is.
macro_rules! lend {
    (@ $call:ident [$($word:expr),*]) => {
        // SAFETY: pointers and lengths are those of slices, of which the mutable
        // ones overlap nothing.
        unsafe { $crate::ffi::$call($($word),*) }
    };
    (@ $call:ident [$($word:expr),*] of $slice:ident $(, $($rest:tt)*)?) => {
        $crate::ffi::lend!(@ $call [$($word,)* $slice.as_ptr(), $slice.len()] $($($rest)*)?)
    };
    (@ $call:ident [$($word:expr),*] into $slice:ident $(, $($rest:tt)*)?) => {
        $crate::ffi::lend!(@ $call [$($word,)* $slice.as_mut_ptr(), $slice.len()] $($($rest)*)?)
    };
    (@ $call:ident [$($word:expr),*] with $value:ident $(, $($rest:tt)*)?) => {
        $crate::ffi::lend!(@ $call [$($word,)* $value] $($($rest)*)?)
    };
    ($call:ident: $($lent:tt)*) => { $crate::ffi::lend!(@ $call [] $($lent)*) };
}

pub(crate) use lend;

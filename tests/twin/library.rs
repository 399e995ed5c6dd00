//! The calls of include/pearrummy.h, linked from target/libpearrummy.a.

use crate::answers::{Counts, Energy, Judgement, Listed, Printed, Reason, Values, Written};
use std::marker::PhantomData;
use std::ptr::null_mut;

mod raw {
    use super::{Counts, Energy, Judgement, Listed, Printed, Reason, Values, Written};

    extern "C" {
        pub fn pearrummy_check_bytes(bytes: *const u8, bytes_count: usize) -> u32;
        pub fn pearrummy_check(words: *const u32, words_count: usize) -> Counts;
        pub fn pearrummy_translate(words: *const u32, words_count: usize, out: *mut u32, out_count: usize) -> Written;
        pub fn pearrummy_judge_model(words: *const u32, words_count: usize, values: *const i32, values_count: usize) -> Judgement;
        pub fn pearrummy_judge_rows(words: *const u32, words_count: usize, values: *const i32, values_count: usize) -> Judgement;
        pub fn pearrummy_fill(
            words: *const u32,
            words_count: usize,
            values: *const i32,
            values_count: usize,
            out: *mut i32,
            out_count: usize,
        ) -> Judgement;
        pub fn pearrummy_sheet(words: *const u32, words_count: usize, page: *mut u8, page_count: usize) -> Printed;
        pub fn pearrummy_reason(words: *const u32, words_count: usize, values: *const i32, values_count: usize) -> Reason;
        pub fn pearrummy_solutions(words: *const u32, words_count: usize, out: *mut i32, out_count: usize) -> Listed;
        pub fn pearrummy_pair_check(words: *const u32, words_count: usize, candidate: u32) -> Counts;
        pub fn pearrummy_pair_translate(words: *const u32, words_count: usize, candidate: u32, out: *mut u32, out_count: usize) -> Written;
        pub fn pearrummy_pair_judge_model(
            words: *const u32,
            words_count: usize,
            candidate: u32,
            values: *const i32,
            values_count: usize,
        ) -> Judgement;
        pub fn pearrummy_pair_fill(
            words: *const u32,
            words_count: usize,
            candidate: u32,
            values: *const i32,
            values_count: usize,
            out: *mut i32,
            out_count: usize,
        ) -> Judgement;
        pub fn pearrummy_text(text: *const u8, text_count: usize, out: *mut u32, out_count: usize) -> Written;
        pub fn pearrummy_bits(words: *const u32, words_count: usize, out: *mut u32, out_count: usize) -> Written;
        pub fn pearrummy_bit_values(
            words: *const u32,
            words_count: usize,
            bits: *const u8,
            bits_count: usize,
            out: *mut i32,
            out_count: usize,
        ) -> Values;
        pub fn pearrummy_bit_energy(words: *const u32, words_count: usize, bits: *const u8, bits_count: usize) -> Energy;
        pub fn pearrummy_value_bits(
            words: *const u32,
            words_count: usize,
            values: *const i32,
            values_count: usize,
            out: *mut u8,
            out_count: usize,
        ) -> Judgement;
        pub fn pearrummy_best_bits(
            words: *const u32,
            words_count: usize,
            variable: usize,
            direction: u32,
            out: *mut u32,
            out_count: usize,
        ) -> Written;
    }
}

/// A list as C lends it. It comes from a list that may be changed also where it is lent for reading: a call that changed it would be seen.
#[derive(Clone, Copy)]
pub struct Lent<'a, T> {
    pointer: *mut T,
    count: usize,
    list: PhantomData<&'a mut [T]>,
}

impl<'a, T> Lent<'a, T> {
    pub fn new(list: &'a mut [T]) -> Self {
        Lent { pointer: list.as_mut_ptr(), count: list.len(), list: PhantomData }
    }

    /// The same list; an empty one is lent as a null pointer.
    pub fn or_null(self) -> Self {
        Lent { pointer: if self.count == 0 { null_mut() } else { self.pointer }, ..self }
    }
}

// Each list below is alive and lent to this call alone, so that its pointer is good for its count.

pub fn check_bytes(bytes: Lent<u8>) -> u32 {
    unsafe { raw::pearrummy_check_bytes(bytes.pointer, bytes.count) }
}

pub fn check(words: Lent<u32>) -> Counts {
    unsafe { raw::pearrummy_check(words.pointer, words.count) }
}

pub fn translate(words: Lent<u32>, out: Lent<u32>) -> Written {
    unsafe { raw::pearrummy_translate(words.pointer, words.count, out.pointer, out.count) }
}

pub fn judge_model(words: Lent<u32>, values: Lent<i32>) -> Judgement {
    unsafe { raw::pearrummy_judge_model(words.pointer, words.count, values.pointer, values.count) }
}

pub fn judge_rows(words: Lent<u32>, values: Lent<i32>) -> Judgement {
    unsafe { raw::pearrummy_judge_rows(words.pointer, words.count, values.pointer, values.count) }
}

pub fn fill(words: Lent<u32>, values: Lent<i32>, out: Lent<i32>) -> Judgement {
    unsafe { raw::pearrummy_fill(words.pointer, words.count, values.pointer, values.count, out.pointer, out.count) }
}

pub fn sheet(words: Lent<u32>, page: Lent<u8>) -> Printed {
    unsafe { raw::pearrummy_sheet(words.pointer, words.count, page.pointer, page.count) }
}

pub fn reason(words: Lent<u32>, values: Lent<i32>) -> Reason {
    unsafe { raw::pearrummy_reason(words.pointer, words.count, values.pointer, values.count) }
}

pub fn solutions(words: Lent<u32>, out: Lent<i32>) -> Listed {
    unsafe { raw::pearrummy_solutions(words.pointer, words.count, out.pointer, out.count) }
}

pub fn pair_check(words: Lent<u32>, candidate: u32) -> Counts {
    unsafe { raw::pearrummy_pair_check(words.pointer, words.count, candidate) }
}

pub fn pair_translate(words: Lent<u32>, candidate: u32, out: Lent<u32>) -> Written {
    unsafe { raw::pearrummy_pair_translate(words.pointer, words.count, candidate, out.pointer, out.count) }
}

pub fn pair_judge_model(words: Lent<u32>, candidate: u32, values: Lent<i32>) -> Judgement {
    unsafe { raw::pearrummy_pair_judge_model(words.pointer, words.count, candidate, values.pointer, values.count) }
}

pub fn pair_fill(words: Lent<u32>, candidate: u32, values: Lent<i32>, out: Lent<i32>) -> Judgement {
    unsafe { raw::pearrummy_pair_fill(words.pointer, words.count, candidate, values.pointer, values.count, out.pointer, out.count) }
}

pub fn text(text: Lent<u8>, out: Lent<u32>) -> Written {
    unsafe { raw::pearrummy_text(text.pointer, text.count, out.pointer, out.count) }
}

pub fn bits(words: Lent<u32>, out: Lent<u32>) -> Written {
    unsafe { raw::pearrummy_bits(words.pointer, words.count, out.pointer, out.count) }
}

pub fn bit_values(words: Lent<u32>, bits: Lent<u8>, out: Lent<i32>) -> Values {
    unsafe { raw::pearrummy_bit_values(words.pointer, words.count, bits.pointer, bits.count, out.pointer, out.count) }
}

pub fn bit_energy(words: Lent<u32>, bits: Lent<u8>) -> Energy {
    unsafe { raw::pearrummy_bit_energy(words.pointer, words.count, bits.pointer, bits.count) }
}

pub fn value_bits(words: Lent<u32>, values: Lent<i32>, out: Lent<u8>) -> Judgement {
    unsafe { raw::pearrummy_value_bits(words.pointer, words.count, values.pointer, values.count, out.pointer, out.count) }
}

pub fn best_bits(words: Lent<u32>, variable: usize, direction: u32, out: Lent<u32>) -> Written {
    unsafe { raw::pearrummy_best_bits(words.pointer, words.count, variable, direction, out.pointer, out.count) }
}

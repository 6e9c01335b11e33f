//! The exported functions as `include/zvonurel.h` declares them.
//!
//! A slice is a pointer, which may not be null, and a number of words. What the header asks of the pointers holds of
//! those of any two slices that Rust lends at once: they are aligned, their words are there, a `&mut` slice overlaps
//! nothing, and nobody else changes the words before the call returns. So a call with the pointer and the length of
//! each slice is sound, whatever the words are. A writer's state is a `&mut`, of which the same holds.

use crate::{AppendState, HISTOGRAM_COUNTS};

#[repr(C)]
pub struct Checked {
    pub number: u32,
    pub bitmap: u32,
    pub word: u64,
}

#[repr(C)]
pub struct Flag {
    pub number: u32,
    pub bitmap: u32,
    pub word: u64,
    pub value: u32,
    pub first: u32,
    pub last: u32,
}

#[repr(C)]
pub struct Number {
    pub number: u32,
    pub bitmap: u32,
    pub word: u64,
    pub value: u32,
}

#[repr(C)]
pub struct Value {
    pub number: u32,
    pub bitmap: u32,
    pub word: u64,
    pub value: u64,
}

#[repr(C)]
pub struct SignedValue {
    pub number: u32,
    pub bitmap: u32,
    pub word: u64,
    pub value: i64,
}

#[repr(C)]
pub struct Written {
    pub number: u32,
    pub bitmap: u32,
    pub word: u64,
    pub words: u64,
}

#[repr(C)]
pub struct Answered {
    pub number: u32,
    pub bitmap: u32,
    pub word: u64,
    pub words: u64,
    pub stretches: u32,
}

#[repr(C)]
pub struct Part {
    pub number: u32,
    pub bitmap: u32,
    pub word: u64,
    pub start: u64,
    pub length: u64,
}

#[repr(C)]
pub struct HistogramCounts {
    pub number: u32,
    pub bitmap: u32,
    pub word: u64,
    pub counts: [u32; HISTOGRAM_COUNTS],
}

type In = *const u32;
type Out = *mut u32;

extern "C" {
    pub fn zv_check_body(body: In, body_words: usize, rows: u32) -> Checked;
    pub fn zv_body_row(body: In, body_words: usize, rows: u32, row: u32) -> Flag;
    pub fn zv_body_count(body: In, body_words: usize, rows: u32) -> Number;
    pub fn zv_body_nth(body: In, body_words: usize, rows: u32, n: u32) -> Number;
    pub fn zv_expand(body: In, body_words: usize, rows: u32, out: Out, out_words: usize) -> Written;
    pub fn zv_compress(rows: u32, plain: In, plain_words: usize, out: Out, out_words: usize) -> Written;
    pub fn zv_body_to_ewah(body: In, body_words: usize, rows: u32, out: Out, out_words: usize) -> Written;
    pub fn zv_body_to_wah(body: In, body_words: usize, rows: u32, out: Out, out_words: usize) -> Written;
    pub fn zv_begin(buffer: In, buffer_words: usize) -> AppendState;
    pub fn zv_append(
        state: *mut AppendState,
        out: Out,
        out_words: usize,
        rows: u32,
        plain: In,
        plain_words: usize,
    ) -> Written;
    pub fn zv_wah_check_body(body: In, body_words: usize, rows: u32) -> Checked;
    pub fn zv_wah_body_row(body: In, body_words: usize, rows: u32, row: u32) -> Flag;
    pub fn zv_wah_body_count(body: In, body_words: usize, rows: u32) -> Number;
    pub fn zv_wah_body_nth(body: In, body_words: usize, rows: u32, n: u32) -> Number;
    pub fn zv_wah_expand(body: In, body_words: usize, rows: u32, out: Out, out_words: usize) -> Written;
    pub fn zv_wah_compress(rows: u32, plain: In, plain_words: usize, out: Out, out_words: usize) -> Written;
    pub fn zv_wah_body_to_ewah(body: In, body_words: usize, rows: u32, out: Out, out_words: usize) -> Written;
    pub fn zv_wah_body_to_wah(body: In, body_words: usize, rows: u32, out: Out, out_words: usize) -> Written;
    pub fn zv_check(index: In, index_words: usize) -> Checked;
    pub fn zv_bitmap_refusal(index: In, index_words: usize, k: u32) -> Checked;
    pub fn zv_bitmap(index: In, index_words: usize, k: u32) -> Part;
    pub fn zv_row(index: In, index_words: usize, k: u32, row: u32) -> Flag;
    pub fn zv_count(index: In, index_words: usize, k: u32) -> Number;
    pub fn zv_nth(index: In, index_words: usize, k: u32, n: u32) -> Number;
    pub fn zv_expand_bitmap(index: In, index_words: usize, k: u32, out: Out, out_words: usize) -> Written;
    pub fn zv_bitmap_to_ewah(index: In, index_words: usize, k: u32, out: Out, out_words: usize) -> Written;
    pub fn zv_bitmap_to_wah(index: In, index_words: usize, k: u32, out: Out, out_words: usize) -> Written;
    pub fn zv_index_to_ewah(index: In, index_words: usize, out: Out, out_words: usize) -> Written;
    pub fn zv_index_to_wah(index: In, index_words: usize, out: Out, out_words: usize) -> Written;
    pub fn zv_and(index: In, index_words: usize, j: u32, k: u32, out: Out, out_words: usize) -> Written;
    pub fn zv_or(index: In, index_words: usize, j: u32, k: u32, out: Out, out_words: usize) -> Written;
    pub fn zv_xor(index: In, index_words: usize, j: u32, k: u32, out: Out, out_words: usize) -> Written;
    pub fn zv_and_not(index: In, index_words: usize, j: u32, k: u32, out: Out, out_words: usize) -> Written;
    pub fn zv_not(index: In, index_words: usize, k: u32, out: Out, out_words: usize) -> Written;
    pub fn zv_threshold(
        index: In,
        index_words: usize,
        list: In,
        list_words: usize,
        t: u32,
        out: Out,
        out_words: usize,
    ) -> Answered;
    pub fn zv_symmetric(
        index: In,
        index_words: usize,
        list: In,
        list_words: usize,
        table: In,
        table_words: usize,
        out: Out,
        out_words: usize,
    ) -> Answered;
    pub fn zv_histogram(index: In, index_words: usize, list: In, list_words: usize) -> HistogramCounts;
    pub fn zv_value(index: In, index_words: usize, column: In, column_numbers: usize, row: u32) -> Value;
    pub fn zv_signed_value(index: In, index_words: usize, column: In, column_numbers: usize, row: u32) -> SignedValue;
}

/// The calls that make a column of two take the same.
macro_rules! of_two_columns {
    ($($name:ident),*) => {
        extern "C" {
            $(pub fn $name(
                index: In,
                index_words: usize,
                first: In,
                first_numbers: usize,
                second: In,
                second_numbers: usize,
                out: Out,
                out_words: usize,
            ) -> Written;)*
        }
    };
}

of_two_columns!(zv_sum, zv_signed_difference, zv_smaller, zv_difference_or_zero);

/// The calls that give the first rows of a column take the same.
macro_rules! first_rows {
    ($($name:ident),*) => {
        extern "C" {
            $(pub fn $name(
                index: In,
                index_words: usize,
                column: In,
                column_numbers: usize,
                k: u32,
                out: Out,
                out_words: usize,
            ) -> Written;)*
        }
    };
}

first_rows!(zv_largest, zv_smallest);

//! The calls on a body alone, for a body in either format: the crate's root has them for EWAH, and `wah` for WAH.

use crate::raw;
use crate::Format::{self, Ewah, Wah};
use crate::{none, settled, words, BadArgument, Refusal, Row};

pub(crate) fn check_body(format: Format, body: &[u32], rows: u32) -> Result<(), Refusal> {
    let call = match format {
        Ewah => raw::zv_check_body,
        Wah => raw::zv_wah_check_body,
    };
    // SAFETY: each pointer is a slice's, with its length.
    let told = unsafe { call(body.as_ptr(), body.len(), rows) };
    settled(told.number, told.bitmap, told.word, (), none)
}

pub(crate) fn body_row(format: Format, body: &[u32], rows: u32, row: u32) -> Result<Row, Refusal> {
    let call = match format {
        Ewah => raw::zv_body_row,
        Wah => raw::zv_wah_body_row,
    };
    // SAFETY: each pointer is a slice's, with its length.
    let told = unsafe { call(body.as_ptr(), body.len(), rows, row) };
    settled(told.number, told.bitmap, told.word, Row::of(&told), || Some(BadArgument::Row { row, rows }))
}

pub(crate) fn body_count(format: Format, body: &[u32], rows: u32) -> Result<u32, Refusal> {
    let call = match format {
        Ewah => raw::zv_body_count,
        Wah => raw::zv_wah_body_count,
    };
    // SAFETY: each pointer is a slice's, with its length.
    let told = unsafe { call(body.as_ptr(), body.len(), rows) };
    settled(told.number, told.bitmap, told.word, told.value, none)
}

pub(crate) fn body_nth(format: Format, body: &[u32], rows: u32, n: u32) -> Result<u32, Refusal> {
    let call = match format {
        Ewah => raw::zv_body_nth,
        Wah => raw::zv_wah_body_nth,
    };
    // SAFETY: each pointer is a slice's, with its length.
    let told = unsafe { call(body.as_ptr(), body.len(), rows, n) };
    settled(told.number, told.bitmap, told.word, told.value, || Some(BadArgument::SetRow { n }))
}

pub(crate) fn expand(format: Format, body: &[u32], rows: u32, out: &mut [u32]) -> Result<usize, Refusal> {
    let call = match format {
        Ewah => raw::zv_expand,
        Wah => raw::zv_wah_expand,
    };
    // SAFETY: each pointer is a slice's, with its length.
    let told = unsafe { call(body.as_ptr(), body.len(), rows, out.as_mut_ptr(), out.len()) };
    settled(told.number, told.bitmap, told.word, words(told.words), none)
}

pub(crate) fn compress(format: Format, rows: u32, plain: &[u32], out: &mut [u32]) -> Result<usize, Refusal> {
    let call = match format {
        Ewah => raw::zv_compress,
        Wah => raw::zv_wah_compress,
    };
    // SAFETY: each pointer is a slice's, with its length.
    let told = unsafe { call(rows, plain.as_ptr(), plain.len(), out.as_mut_ptr(), out.len()) };
    settled(told.number, told.bitmap, told.word, words(told.words), || {
        Some(BadArgument::PlainWords { words: plain.len(), rows })
    })
}

pub(crate) fn rewrite(
    (from, to): (Format, Format),
    body: &[u32],
    rows: u32,
    out: &mut [u32],
) -> Result<usize, Refusal> {
    let call = match (from, to) {
        (Ewah, Ewah) => raw::zv_body_to_ewah,
        (Ewah, Wah) => raw::zv_body_to_wah,
        (Wah, Ewah) => raw::zv_wah_body_to_ewah,
        (Wah, Wah) => raw::zv_wah_body_to_wah,
    };
    // SAFETY: each pointer is a slice's, with its length.
    let told = unsafe { call(body.as_ptr(), body.len(), rows, out.as_mut_ptr(), out.len()) };
    settled(told.number, told.bitmap, told.word, words(told.words), none)
}

//! The last row, which all others are before, of an index and of a body alone.

use std::hint::black_box;

use zvonurel::{wah, Format};

use crate::inputs::{self, Data};

#[derive(Debug, Clone, Copy, PartialEq, Eq)]
enum Call {
    Row,
    BodyRow,
    WahBodyRow,
}

/// Each call, and the format of the index that it is asked of.
fn named(name: &str) -> Option<(Call, Format)> {
    match name {
        "row" => Some((Call::Row, Format::Ewah)),
        "body_row" => Some((Call::BodyRow, Format::Ewah)),
        "wah_row" => Some((Call::Row, Format::Wah)),
        "wah_body_row" => Some((Call::WahBodyRow, Format::Wah)),
        _ => None,
    }
}

/// The library's call, once, on bitmap 0. Its own function, so that a profiler can find it.
#[inline(never)]
fn measured_call(call: Call, index: &[u32], rows: u32) {
    let (index, body) = (black_box(index), black_box(inputs::body(index, 0)));
    let told = match call {
        Call::Row => zvonurel::row(index, 0, rows - 1),
        Call::BodyRow => zvonurel::body_row(body, rows, rows - 1),
        Call::WahBodyRow => wah::body_row(body, rows, rows - 1),
    };
    black_box(told.expect("a sound question"));
}

pub fn index_in(format: Format, data: &Data) -> Vec<u32> {
    let mut index = vec![0; format.most_new_index_words(data.rows, data.bitmaps)];
    let words = match format {
        Format::Ewah => zvonurel::index_to_ewah(&data.index, &mut index),
        Format::Wah => zvonurel::index_to_wah(&data.index, &mut index),
    };
    index.truncate(words.expect("a sound index and room for it"));
    index
}

/// One call and nothing else, for a profiler.
pub fn one(call: &str, kind: &str, rows: &str, bitmaps: &str, repeats: &str) -> Option<()> {
    let (named, format) = named(call)?;
    let (kind, rows, bitmaps, repeats) = inputs::arguments([kind, rows, bitmaps, repeats], 1)?;
    let index = index_in(format, &Data::keeping(0, kind, rows, bitmaps));
    for _ in 0..repeats {
        measured_call(named, &index, rows);
    }
    let words = inputs::words(&index, bitmaps);
    println!("{call} {} rows {rows} bitmaps {bitmaps} words {words}: {repeats} times", kind.name());
    Some(())
}

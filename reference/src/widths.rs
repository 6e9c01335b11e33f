//! What taking a WAH segment for a whole word of rows could get wrong. Only mistakes look here: without one, nothing
//! is changed.

use crate::body::Body;
use crate::format::Format;
use crate::limits::{WAH_ROWS, WORD_BITS};
use crate::mistakes::{mistaken, Mistake};

/// Is the mistake switched on, and this format WAH?
fn made(format: Format, m: Mistake) -> bool {
    format == Format::Wah && mistaken(m)
}

/// The row whose bit is taken for this row's.
pub(crate) fn looked_up(body: &Body, row: usize) -> usize {
    if !made(body.format, Mistake::RowBy32) || row >= body.rows.len() {
        return row;
    }
    by_32(row)
}

/// The row of WAH that lies where this one would if segments had a whole word of rows.
pub(crate) fn by_32(row: usize) -> usize {
    row / WORD_BITS * WAH_ROWS + row % WORD_BITS
}

/// The number by which a row is told.
pub(crate) fn told(body: &Body, row: usize) -> usize {
    if !made(body.format, Mistake::NthBy32) {
        return row;
    }
    row / WAH_ROWS * WORD_BITS + row % WAH_ROWS
}

/// Rows that are counted though there are none: one for each segment under a fill of ones.
pub(crate) fn counted_more(body: &Body) -> usize {
    if !made(body.format, Mistake::FillCounts32) {
        return 0;
    }
    let (mut more, mut start) = (0, 0);
    for piece in &body.pieces {
        let end = piece.last + 1;
        if !piece.dirty && body.rows.get(WAH_ROWS * start) == Some(true) {
            more += end - start;
        }
        start = end;
    }
    more
}

/// Rows of a plain word that is read from a body.
pub(crate) fn expanded(format: Format) -> usize {
    if made(format, Mistake::ExpandBySegments) {
        WAH_ROWS
    } else {
        WORD_BITS
    }
}

/// Rows of a plain word that a body is written from.
pub(crate) fn compressed(format: Format) -> usize {
    if made(format, Mistake::CompressBySegments) {
        WAH_ROWS
    } else {
        WORD_BITS
    }
}

/// The same where only its pad bits are looked for.
pub(crate) fn padded(format: Format) -> usize {
    if made(format, Mistake::PlainPadsBy31) {
        WAH_ROWS
    } else {
        compressed(format)
    }
}

//! The rows of a piece as a row question tells them, and what telling them could get wrong. Without a mistake they are
//! the rows of the piece's own segments.

use std::ops::Range;

use crate::body::Body;
use crate::format::Format;
use crate::limits::WORD_BITS;
use crate::mistakes::{mistaken, Mistake};

/// Is a mistake of EWAH, or its like of WAH, switched on for a body of that format?
fn made(body: &Body, ewah: Mistake, wah: Mistake) -> bool {
    match body.format {
        Format::Ewah => mistaken(ewah),
        Format::Wah => mistaken(wah),
    }
}

/// The rows of this row's piece: the first and the last.
pub(crate) fn told(body: &Body, row: usize) -> (u32, u32) {
    let (first, last) = rows_told(body, segments_told(body, row / body.format.width()));
    if made(body, Mistake::FirstIsAsked, Mistake::WahFirstIsAsked) {
        return (row as u32, last);
    }
    (first, last)
}

/// The segments that are told for the piece over this one.
fn segments_told(body: &Body, segment: usize) -> Range<usize> {
    let piece = body.piece_over(segment);
    let dirty = |piece: usize| body.pieces[piece].dirty;
    let alike = |a, b| value(body, a).is_some() && value(body, a) == value(body, b);
    if made(body, Mistake::RowJoinsRuns, Mistake::RowJoinsFills) {
        return joined(body, piece, |a, b| !dirty(a) && !dirty(b) && alike(a, b));
    }
    if made(body, Mistake::CleanDirtyInRun, Mistake::CleanLiteralInFill) {
        return joined(body, piece, |a, b| dirty(a) != dirty(b) && alike(a, b));
    }
    if mistaken(Mistake::LiteralsJoined) && body.format == Format::Wah {
        return joined(body, piece, |a, b| dirty(a) && dirty(b));
    }
    if made(body, Mistake::RunIsOneSegment, Mistake::FillIsOneSegment) {
        return segment..segment + 1;
    }
    of_marker(body, segment).unwrap_or(body.segments(piece))
}

/// The value that all rows of a piece have; none if they differ.
fn value(body: &Body, piece: usize) -> Option<bool> {
    let (first, last) = body.extent(body.segments(piece));
    body.rows.part(first as usize..last as usize + 1).same()
}

/// The segments of a piece and of those around it, as far as neighbours go together.
fn joined(body: &Body, piece: usize, together: impl Fn(usize, usize) -> bool) -> Range<usize> {
    let (mut from, mut to) = (piece, piece);
    while from > 0 && together(from - 1, from) {
        from -= 1;
    }
    while to + 1 < body.pieces.len() && together(to, to + 1) {
        to += 1;
    }
    body.segments(from).start..body.segments(to).end
}

/// What mistakes tell for a dirty word: something else of its marker, or of the next.
fn of_marker(body: &Body, segment: usize) -> Option<Range<usize>> {
    let (parts, on) = if mistaken(Mistake::DirtyWordsJoined) {
        (&body.dirties, 0)
    } else if mistaken(Mistake::DirtyTellsRun) {
        (&body.runs, 0)
    } else if mistaken(Mistake::DirtyTellsNextRun) {
        (&body.runs, 1)
    } else {
        return None;
    };
    let marker = body.dirties.iter().position(|dirty| dirty.contains(&segment))?;
    parts.get(marker + on).filter(|part| !part.is_empty()).cloned()
}

/// First and last row that are told for these segments.
fn rows_told(body: &Body, segments: Range<usize>) -> (u32, u32) {
    let (width, rows) = (body.format.width(), body.rows.len());
    let (first, last) = body.extent(segments.clone());
    if made(body, Mistake::ExtentInSegments, Mistake::WahExtentInSegments) {
        return (segments.start as u32, segments.end as u32 - 1);
    }
    if made(body, Mistake::LastRowInPads, Mistake::WahLastRowInPads) {
        return (first, (width * segments.end) as u32 - 1);
    }
    if made(body, Mistake::LastRowOneMore, Mistake::WahLastRowOneMore) {
        return (first, (width * segments.end).min(rows - 1) as u32);
    }
    // That is right in EWAH.
    if mistaken(Mistake::ExtentBy32) {
        let end = (WORD_BITS * segments.end).min(rows);
        return ((WORD_BITS * segments.start) as u32, end as u32 - 1);
    }
    (first, last)
}

//! One body, in either format: checking, reading, writing.

use std::borrow::Cow;
use std::ops::Range;

use crate::format::Format;
use crate::mistakes::{mistaken, mistaken_in, Mistake};
use crate::refusal::{bad_argument, few_enough, must_fit, refusal, Refusal};
use crate::segment::{pad_mask, segments_in, segments_of, Segment};
use crate::spans::Spans;
use crate::{blocks, ewah, extents, wah, widths};

// ---- checking ----

/// Checks the words of one body. `base` is the place of its first word and
/// `bitmap` its number, for the refusal only. The rows are known to be few enough.
pub(crate) fn check_words(body: &[u32], rows: u32, format: Format, bitmap: u32, base: usize) -> Result<(), Refusal> {
    let fault = |number, place: usize| refusal(number, bitmap, base + place);
    match format {
        Format::Ewah => ewah::check(body, rows, &fault),
        Format::Wah => wah::check(body, rows, &fault),
    }
}

/// Checks a body that stands alone.
pub fn check_body(body: &[u32], rows: u32, format: Format) -> Result<(), Refusal> {
    few_enough(rows, Mistake::BodyRowsOneOver, Mistake::BodyRowsAsOnce)?;
    check_words(body, rows, format, 0, 0)
}

// ---- reading ----

/// A run, or a dirty word by itself. In WAH each word is one.
#[derive(Clone, Copy)]
pub(crate) struct Piece {
    /// The segment at which it ends.
    pub last: usize,
    /// It is no run.
    pub dirty: bool,
}

/// A sound body, taken apart.
pub(crate) struct Body {
    pub format: Format,
    /// Which rows are set.
    pub rows: Spans<bool>,
    /// What is spelt past the last row, for mistakes only.
    pub pads: Spans<bool>,
    /// In order; together they have all segments.
    pub pieces: Vec<Piece>,
    /// The segments under each marker's dirty words, for mistakes only; none in WAH.
    pub dirties: Vec<Range<usize>>,
    /// The segments under each marker's clean run, likewise.
    pub runs: Vec<Range<usize>>,
}

impl Body {
    /// Which piece a segment lies in.
    pub fn piece_over(&self, segment: usize) -> usize {
        self.pieces.partition_point(|piece| piece.last < segment)
    }

    /// The segments of a piece.
    pub fn segments(&self, piece: usize) -> Range<usize> {
        let start = if piece == 0 { 0 } else { self.pieces[piece - 1].last + 1 };
        start..self.pieces[piece].last + 1
    }

    /// The rows, and the pads behind them.
    pub fn rows_and_pads(&self) -> Spans<bool> {
        let mut all = self.rows.clone();
        all.append(&self.pads);
        all
    }

    /// First and last row of these segments. Pads are no rows.
    pub fn extent(&self, segments: Range<usize>) -> (u32, u32) {
        let width = self.format.width();
        let end = (width * segments.end).min(self.rows.len());
        ((width * segments.start) as u32, end as u32 - 1)
    }
}

/// Takes a sound body apart.
pub(crate) fn read(body: &[u32], rows: u32, format: Format) -> Body {
    let mut body = match format {
        Format::Ewah => ewah::read(body, rows),
        Format::Wah => wah::read(body, rows),
    };
    if mistaken(Mistake::RunSplitAtPads) {
        split_at_pads(&mut body);
    }
    body
}

/// What a mistake takes for pieces: the last segment of a run of ones over pads goes by itself.
fn split_at_pads(body: &mut Body) {
    let before = body.pieces.iter().rev().nth(1).map_or(0, |piece| piece.last + 1);
    let Some(last) = body.pieces.last().map(|piece| piece.last) else { return };
    if body.pads.any() && last > before {
        body.pieces.insert(body.pieces.len() - 1, Piece { last: last - 1, dirty: false });
    }
}

/// A lone body, checked and then taken apart.
fn read_alone(body: &[u32], rows: u32, format: Format) -> Result<Body, Refusal> {
    check_body(body, rows, format)?;
    Ok(read(body, rows, format))
}

// ---- questions on one body's rows ----

/// What is told of a row.
#[derive(Clone, Copy, Debug, PartialEq, Eq)]
pub struct Row {
    pub set: bool,
    /// The first row of its piece.
    pub first: u32,
    /// The last one; it is below R.
    pub last: u32,
}

pub(crate) fn row_in(body: &Body, row: u32) -> Result<Row, Refusal> {
    let (at, rows) = (row as usize, body.rows.len());
    if at == rows && mistaken(Mistake::RowPastEndFalse) {
        return Ok(Row { set: false, first: row, last: row });
    }
    let pads_too = mistaken_in(body.format, Mistake::RowInPads, Mistake::WahRowInPads);
    let in_pads = at >= rows && pads_too && body.pads.get(at - rows) == Some(true);
    let set = in_pads || body.rows.get(widths::looked_up(body, at)).ok_or(bad_argument())?;
    let (first, last) = extents::told(body, at);
    Ok(Row { set, first, last })
}

/// First and last row of each piece, in order.
pub(crate) fn pieces_in(body: &Body) -> Vec<(u32, u32)> {
    (0..body.pieces.len()).map(|piece| body.extent(body.segments(piece))).collect()
}

pub(crate) fn count_in(body: &Body) -> u32 {
    let pads_too = mistaken_in(body.format, Mistake::RunCountsPads, Mistake::WahCountsPads);
    let more = if pads_too { body.pads.count() } else { 0 };
    (body.rows.count() - blocks::left_out(body) + more + widths::counted_more(body)) as u32
}

/// The rows, and for a mistake the pads as well.
fn rows_taking(body: &Body, pads_too: bool) -> Cow<'_, Spans<bool>> {
    match pads_too {
        true => Cow::Owned(body.rows_and_pads()),
        false => Cow::Borrowed(&body.rows),
    }
}

pub(crate) fn nth_in(body: &Body, n: u32) -> Result<u32, Refusal> {
    let rows = rows_taking(body, mistaken_in(body.format, Mistake::NthInPads, Mistake::WahNthInPads));
    if mistaken(Mistake::NthPastGivesLast) && n >= count_in(body) {
        return rows.set().next_back().map(|set| set.end as u32 - 1).ok_or(bad_argument());
    }
    let n = n as usize + blocks::kept_on(body, n as usize);
    let row = rows.nth(n).ok_or(bad_argument())?;
    Ok((widths::told(body, row) - blocks::told_short(body, row)) as u32)
}

pub(crate) fn expand_rows(body: &Body, room: usize) -> Result<Vec<u32>, Refusal> {
    let rows = rows_taking(body, mistaken_in(body.format, Mistake::ExpandKeepsPads, Mistake::WahExpandKeepsPads));
    let words = rows.words(widths::expanded(body.format));
    must_fit(words.len(), room)?;
    Ok(words.to_vec())
}

/// Has a lone body this row, and which rows does its piece have?
pub fn body_row(body: &[u32], rows: u32, format: Format, row: u32) -> Result<Row, Refusal> {
    row_in(&read_alone(body, rows, format)?, row)
}

/// First and last row of each piece of a lone body, in order.
pub fn body_pieces(body: &[u32], rows: u32, format: Format) -> Result<Vec<(u32, u32)>, Refusal> {
    Ok(pieces_in(&read_alone(body, rows, format)?))
}

/// How many rows a lone body has.
pub fn body_count(body: &[u32], rows: u32, format: Format) -> Result<u32, Refusal> {
    Ok(count_in(&read_alone(body, rows, format)?))
}

/// The nth set row of a lone body, from 0.
pub fn body_nth(body: &[u32], rows: u32, format: Format, n: u32) -> Result<u32, Refusal> {
    nth_in(&read_alone(body, rows, format)?, n)
}

/// A lone body as plain words.
pub fn expand(body: &[u32], rows: u32, format: Format, room: usize) -> Result<Vec<u32>, Refusal> {
    expand_rows(&read_alone(body, rows, format)?, room)
}

// ---- writing ----

/// The settled body of these segments.
pub(crate) fn settle(segments: &Spans<Segment>, format: Format) -> Vec<u32> {
    match format {
        Format::Ewah => ewah::settle(segments),
        Format::Wah => wah::settle(segments),
    }
}

/// The settled body of these rows.
pub(crate) fn settled(rows: &Spans<bool>, format: Format) -> Vec<u32> {
    let segments = segments_in(rows, format);
    if mistaken(Mistake::FullTailOwnRun) && !rows.len().is_multiple_of(format.width()) {
        let mut before = segments.clone();
        let last = before.split_off(segments.len() - 1);
        if last.same().is_some_and(|last| last.clean == Some(true)) {
            return [settle(&before, format), settle(&last, format)].concat();
        }
    }
    settle(&segments, format)
}

/// The settled body of plain words, which have 32 rows each in either format.
pub fn compress(rows: u32, plain: &[u32], format: Format, room: usize) -> Result<Vec<u32>, Refusal> {
    few_enough(rows, Mistake::PlainRowsOneOver, Mistake::PlainRowsAsOnce)?;
    let width = widths::compressed(format);
    if plain.len() != segments_of(rows, width) {
        return Err(bad_argument());
    }
    if let Some(&last) = plain.last() {
        let passes = mistaken(Mistake::PlainOnesPass) && last == u32::MAX;
        if last & pad_mask(rows, widths::padded(format)) != 0 && !passes {
            return Err(refusal(7, 0, plain.len() - 1));
        }
    }
    let mut set = Spans::none();
    for &word in plain {
        set.push_bits(word, width);
    }
    set.split_off(rows as usize);
    let words = settled(&set, format);
    must_fit(words.len(), room)?;
    Ok(words)
}

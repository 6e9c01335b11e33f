//! Bodies in WAH, the Word-Aligned Hybrid: the calls on a body alone, and the listings of its rows, under the names
//! that they have for EWAH at the crate's root.
//!
//! Row r is bit r % [`WAH_SEGMENT_ROWS`], counted from the lowest, of segment r / [`WAH_SEGMENT_ROWS`]. Each word of a
//! body is one of two:
//!
//! - a **literal**, whose highest bit is clear: one segment, which the other bits are;
//! - a **fill**, whose highest bit is set: as many segments as its bits below [`WAH_VALUE_SHIFT`] count, all of their
//!   rows clear or all set, as bit [`WAH_VALUE_SHIFT`] says. It counts one segment or more.
//!
//! What the last segment has behind the last row are pad bits, which are no rows. A literal may have none of them set;
//! a fill of ones over that segment sets the rows that are there.
//!
//! What the library writes is in canonical form, which has the fewest words: two or more segments one behind the other
//! with all rows clear are one fill, and so with all rows set; any other segment is a literal. What it reads may be
//! wasteful.
//!
//! | Words | Rows |
//! |---|---|
//! | `80000002` | 62, none set |
//! | `C0000002` | 40, all set: 31, and the 9 that are left |
//! | `7FFFFFFF` | 31, all set |
//! | `000001FF` | 9, all set |
//! | `00000001 00000100` | rows 0 and 39 of 40 |
//!
//! An index whose word 0 is [`WAH_INDEX_KIND`] has such bodies. Every call on an index takes it, and what a call
//! writes of it is in WAH too, unless its name says EWAH. [`IndexBuilder::with_format`] makes one:
//!
//! ```
//! use zvonurel::{wah, Format, IndexBuilder};
//!
//! let mut builder = IndexBuilder::with_format(40, Format::Wah);
//! builder.add_rows(0..40)?;
//! builder.add_rows([0, 39])?;
//! let index = builder.build()?;
//! assert_eq!(index, [2, 40, 2, 7, 1, 8, 2, 0xC000_0002, 0x1, 0x100]);
//!
//! let body = zvonurel::bitmap(&index, 1)?;
//! assert_eq!(wah::set_rows(body, 40)?.collect::<Vec<_>>(), [0, 39]);
//! let mut out = [0; Format::Wah.most_body_words(40)];
//! let words = zvonurel::not(&index, 0, &mut out)?;
//! assert_eq!(out[..words], [0x8000_0002]);
//! # Ok::<(), zvonurel::Refusal>(())
//! ```
//!
//! [`WAH_SEGMENT_ROWS`]: crate::WAH_SEGMENT_ROWS
//! [`WAH_VALUE_SHIFT`]: crate::WAH_VALUE_SHIFT
//! [`WAH_INDEX_KIND`]: crate::WAH_INDEX_KIND
//! [`IndexBuilder::with_format`]: crate::IndexBuilder::with_format

use crate::Format::{Ewah, Wah};
use crate::{builder, lone, Refusal, Row, SetRows, Spells};

/// Whether a body in WAH of that many rows is sound.
///
/// # Errors
/// 3 for too many rows; 6, 7 or 10 for the body's first fault.
///
/// ```
/// use zvonurel::wah;
///
/// // rows 0 and 39 of 40
/// assert!(wah::check_body(&[0x1, 0x100], 40).is_ok());
/// // all of them: a fill of ones over the last segment means its real rows
/// assert!(wah::check_body(&[0xC000_0002], 40).is_ok());
/// // a literal with a bit behind row 39
/// assert_eq!(wah::check_body(&[0x1, 0x300], 40).unwrap_err().number, 7);
/// // a fill of no segments
/// assert_eq!(wah::check_body(&[0x1, 0x8000_0000], 40).unwrap_err().numbers(), (10, 0, 1));
/// ```
pub fn check_body(body: &[u32], rows: u32) -> Result<(), Refusal> {
    lone::check_body(Wah, body, rows)
}

/// Whether a row of a body in WAH is set, and which rows the fill or the literal has that it lies in: see [`Row`].
///
/// # Errors
/// 3 for too many rows; 6, 7 or 10 for the body's first fault; 8 where there is no such row.
///
/// ```
/// use zvonurel::{wah, Row};
///
/// // rows 0 and 39 of 40, in two literals
/// assert_eq!(wah::body_row(&[0x1, 0x100], 40, 39), Ok(Row { set: true, first: 31, last: 39 }));
/// // all 40, in one fill
/// assert_eq!(wah::body_row(&[0xC000_0002], 40, 39), Ok(Row { set: true, first: 0, last: 39 }));
/// ```
pub fn body_row(body: &[u32], rows: u32, row: u32) -> Result<Row, Refusal> {
    lone::body_row(Wah, body, rows, row)
}

/// How many rows of a body in WAH are set.
///
/// # Errors
/// 3 for too many rows; 6, 7 or 10 for the body's first fault.
///
/// ```
/// assert_eq!(zvonurel::wah::body_count(&[0x1, 0x100], 40), Ok(2));
/// assert_eq!(zvonurel::wah::body_count(&[0xC000_0002], 40), Ok(40));
/// ```
pub fn body_count(body: &[u32], rows: u32) -> Result<u32, Refusal> {
    lone::body_count(Wah, body, rows)
}

/// The nth set row of a body in WAH, counted from 0.
///
/// # Errors
/// 3 for too many rows; 6, 7 or 10 for the body's first fault; 8 where n or fewer rows are set.
///
/// ```
/// let body = [0x1, 0x100];
/// assert_eq!(zvonurel::wah::body_nth(&body, 40, 1), Ok(39));
/// assert_eq!(zvonurel::wah::body_nth(&body, 40, 2).unwrap_err().number, 8);
/// ```
pub fn body_nth(body: &[u32], rows: u32, n: u32) -> Result<u32, Refusal> {
    lone::body_nth(Wah, body, rows, n)
}

/// Writes the rows of a body in WAH as plain words, one for each [`WORD_BITS`](crate::WORD_BITS) rows, and returns how
/// many. They are not the body's segments, which have a row less.
///
/// # Errors
/// 3 for too many rows; 6, 7 or 10 for the body's first fault; 9 for a short buffer.
///
/// ```
/// let mut plain = [0; 2];
/// assert_eq!(zvonurel::wah::expand(&[0x1, 0x100], 40, &mut plain), Ok(2));
/// assert_eq!(plain, [0x1, 0x80]);
/// ```
pub fn expand(body: &[u32], rows: u32, out: &mut [u32]) -> Result<usize, Refusal> {
    lone::expand(Wah, body, rows, out)
}

/// Writes plain words as a body in WAH, in the one form with the fewest words, and returns how many.
///
/// # Errors
/// 3 for too many rows; 8 unless there is one word for each [`WORD_BITS`](crate::WORD_BITS) rows; 7 where the last has
/// a bit behind the last row; 9 for a short buffer.
///
/// ```
/// let mut body = [0; 2];
/// assert_eq!(zvonurel::wah::compress(40, &[0x1, 0x80], &mut body), Ok(2));
/// assert_eq!(body, [0x1, 0x100]);
/// ```
pub fn compress(rows: u32, plain: &[u32], out: &mut [u32]) -> Result<usize, Refusal> {
    lone::compress(Wah, rows, plain, out)
}

/// Writes the rows of a body in WAH as a body in EWAH, in the one form with the fewest words, and returns how many
/// words. [`to_wah`](crate::to_wah) goes the other way.
///
/// # Errors
/// 3 for too many rows; 6, 7 or 10 for the body's first fault; 9 for a short buffer.
///
/// ```
/// let mut out = [0; 3];
/// assert_eq!(zvonurel::wah::to_ewah(&[0x1, 0x100], 40, &mut out), Ok(3));
/// assert_eq!(out, [0x40000, 0x1, 0x80]);
/// ```
pub fn to_ewah(body: &[u32], rows: u32, out: &mut [u32]) -> Result<usize, Refusal> {
    lone::rewrite((Wah, Ewah), body, rows, out)
}

/// Writes the rows of a body in WAH as such a body again, in the one form with the fewest words, and returns how many
/// words.
///
/// # Errors
/// 3 for too many rows; 6, 7 or 10 for the body's first fault; 9 for a short buffer.
///
/// ```
/// // three segments, none of their rows set: a literal and a fill of two
/// let mut out = [0; 1];
/// assert_eq!(zvonurel::wah::to_wah(&[0x0, 0x8000_0002], 93, &mut out), Ok(1));
/// assert_eq!(out, [0x8000_0003]);
/// ```
pub fn to_wah(body: &[u32], rows: u32, out: &mut [u32]) -> Result<usize, Refusal> {
    lone::rewrite((Wah, Wah), body, rows, out)
}

/// The set rows of a body in WAH, lowest first.
///
/// # Errors
/// 3 for too many rows; 6, 7 or 10 for the body's first fault.
///
/// ```
/// assert_eq!(zvonurel::wah::set_rows(&[0x1, 0x100], 40)?.collect::<Vec<_>>(), [0, 39]);
/// # Ok::<(), zvonurel::Refusal>(())
/// ```
pub fn set_rows(body: &[u32], rows: u32) -> Result<SetRows, Refusal> {
    SetRows::of(Wah, body, rows)
}

/// The spells of a body in WAH, first to last: its unbroken runs of set rows, each as long as it goes.
///
/// # Errors
/// 3 for too many rows; 6, 7 or 10 for the body's first fault.
///
/// ```
/// use zvonurel::{wah, Spell};
///
/// // rows 30 to 63 of 93: the last of a segment, all of the next, and two more
/// let spells: Vec<Spell> = wah::spells(&[0x4000_0000, 0x7FFF_FFFF, 0x3], 93)?.collect();
/// assert_eq!(spells, [Spell { first: 30, length: 34 }]);
/// # Ok::<(), zvonurel::Refusal>(())
/// ```
pub fn spells(body: &[u32], rows: u32) -> Result<Spells, Refusal> {
    Spells::of(Wah, body, rows)
}

/// The words of an index in WAH of these bodies, in order, with its contents right.
///
/// The rows and the bodies are taken as they are: [`check`](crate::check), or any question, says whether the index is
/// sound.
///
/// ```
/// let index = zvonurel::wah::index_of(62, &[[0x8000_0002], [0xC000_0002]]);
/// assert_eq!(index, [2, 62, 2, 7, 1, 8, 1, 0x8000_0002, 0xC000_0002]);
/// ```
#[must_use]
pub fn index_of<B: AsRef<[u32]>>(rows: u32, bodies: &[B]) -> Vec<u32> {
    builder::laid_out(Wah, rows, bodies)
}

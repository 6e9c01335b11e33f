//! Bitmaps of 32-bit words, in EWAH or in WAH, that answer a question rightly or refuse it.
//!
//! Safe calls over a library whose every function is proved to meet its contract: what is returned, and every word of a
//! buffer afterwards, is settled for every input. Nothing is asked of the words; what is wrong with them is refused,
//! with a [`Refusal`], and then no word of a buffer changes. No call allocates, keeps anything, or panics: what a
//! writer has to remember between two batches is a state that its caller keeps, and lends with the buffer.
//!
//! An **index** is words: [`INDEX_KIND`] or [`WAH_INDEX_KIND`], the rows, the number of bitmaps, then for each bitmap
//! where its body starts and how many words it has, then the bodies. The whole of it is checked for every question. A
//! **body** says which rows of a bitmap are set, in EWAH by markers and dirty words. **Plain words** have
//! [`WORD_BITS`] rows each, the lowest bit first. A **column** gives each row that exists a value. A list of bitmap
//! numbers names it: existence, then the slices, the lowest first; slice i has the rows whose value has the binary
//! digit of weight 2^i set. In a **signed column** the highest slice is the sign, and weighs as much below zero: with
//! n slices -2^(n-1). Nothing in an index says which columns are signed; [`signed_value`] reads any as one.
//!
//! ```
//! // three bitmaps of four rows: rows 0, 1; rows 1, 2, 3; row 3
//! let index = [1, 4, 3, 9, 2, 11, 2, 13, 2, 0x20000, 0b0011, 0x20000, 0b1110, 0x20000, 0b1000];
//! zvonurel::check(&index)?;
//!
//! // the rows that at least two of the three have, as a body
//! let mut out = [0; 12];
//! let answer = zvonurel::threshold(&index, &[0, 1, 2], 2, &mut out)?;
//! let body = &out[..answer.words];
//! assert_eq!(zvonurel::body_count(body, 4)?, 2);
//! assert!(zvonurel::body_row(body, 4, 1)?.set && zvonurel::body_row(body, 4, 3)?.set);
//!
//! // there is no way for at least four of three to have a row
//! let refusal = zvonurel::threshold(&index, &[0, 1, 2], 4, &mut out).unwrap_err();
//! assert_eq!(refusal.number, zvonurel::Refusal::BAD_ARGUMENT);
//! # Ok::<(), zvonurel::Refusal>(())
//! ```
//!
//! # Two formats
//!
//! All bodies of an index are in one [`Format`], EWAH or WAH, and a call on an index takes either: what it writes, a
//! body or a new index, is in the same one. A body alone does not tell its format. The calls here are for EWAH, and
//! those of the module [`wah`], which says what the words of such a body are, for WAH. Rewriting goes from either to
//! either: [`to_wah`] and [`wah::to_ewah`] for a body, [`bitmap_to_ewah`] and [`bitmap_to_wah`] for one of an index,
//! [`index_to_ewah`] and [`index_to_wah`] for all of it.
//!
//! ```
//! // the same three bitmaps in WAH, in which such a bitmap takes one word
//! let index = [1, 4, 3, 9, 2, 11, 2, 13, 2, 0x20000, 0b0011, 0x20000, 0b1110, 0x20000, 0b1000];
//! let mut out = [0; zvonurel::Format::Wah.most_new_index_words(4, 3)];
//! let words = zvonurel::index_to_wah(&index, &mut out)?;
//! assert_eq!(out[..words], [2, 4, 3, 9, 1, 10, 1, 11, 1, 0b0011, 0b1110, 0b1000]);
//! // and what two of them have both
//! let mut both = [0; 1];
//! assert_eq!(zvonurel::and(&out[..words], 0, 1, &mut both), Ok(1));
//! assert_eq!(both, [0b0010]);
//! # Ok::<(), zvonurel::Refusal>(())
//! ```
//!
//! # Rows that come in batches
//!
//! A [`Writer`] puts each batch behind the rows so far. Then its buffer begins with the body of all of them, in EWAH,
//! in the one form with the fewest words, whatever the batches were. [`append`] does it with a state that the caller
//! keeps.
//!
//! ```
//! let mut buffer = [0; zvonurel::most_body_words(96)];
//! let mut writer = zvonurel::Writer::new(&mut buffer);
//! writer.append(48, &[0, 0])?; // a day of half hours, none of them set
//! writer.append(48, &[0x8000_0000, 0x1])?; // and the next, in which half hours 31 and 32 are
//! assert_eq!(writer.body(), [0x20004, 0x18000]); // two clean segments, and rows 79 and 80
//! assert_eq!(zvonurel::body_count(writer.body(), writer.rows())?, 2);
//! # Ok::<(), zvonurel::Refusal>(())
//! ```
//!
//! # Linking
//!
//! The package links `libzvonurel_c.a`, which `./build` at the repository's root proves and writes to
//! `target/staticlib`; or the one in the folder that the variable `ZVONUREL_LIB` names, by its whole path.
//!
//! # Beside the calls
//!
//! Plain Rust over the proved calls, not itself proved. [`Writer`] keeps the state and the buffer of [`append`]
//! together, and allocates nothing but what [`Writer::append_each`] says. These allocate what they return:
//!
//! - [`set_rows`] and [`spells`] list a body's rows, and in [`wah`] those of one in WAH. A loop of [`body_nth`] or of
//!   [`body_row`] would walk the body anew for each row.
//! - [`IndexBuilder`] makes an index in either format of bodies, plain words, rows or the values of columns, and
//!   [`index_of`] and [`wah::index_of`] of words that may be anything.
//! - [`import`] makes a body of the words that another EWAH library wrote, [`import_java`] of a whole file, or says why
//!   not.
//!
//! # Room
//!
//! A buffer of [`most_body_words`] words takes every body of so many rows, one of [`segments`] words every body's
//! plain words, one of [`most_sum_words`] words every sum of columns and whatever else is made of two, but for one of
//! more words than [`MOST_INDEX_WORDS`]: such an index is refused whatever the buffer, and so is one that is rewritten.
//! For bodies and indexes that are written in WAH, or in either, a [`Format`] has these sizes; of many rows WAH can
//! need more words. A buffer of length 0 measures: the refusal is [`Refusal::NO_ROOM`], with the words needed, unless
//! none are; a writer measures so only if it began with such a buffer.
//!
//! # Cost
//!
//! A call on an index checks the whole of it first, so it costs at least that: the contents and every marker, though no
//! dirty word but a last one; in WAH every word. For many questions on one bitmap, take its body with [`bitmap`] once
//! and ask the calls on a body of its format. [`value`] and [`signed_value`] also look through all slices of their
//! column, each time: for many values of one column, expand its bitmaps once. [`largest`] and [`smallest`] go through
//! their column once for each slice, whatever k is, and a few times more. [`append`] goes through the body so far and
//! the batch, each once or twice, however short the batch is. The library was built for Linux on x86-64; a call needs
//! less than 32 KiB of stack.
#![deny(missing_docs)]
#![deny(unsafe_op_in_unsafe_fn)]
#![warn(clippy::undocumented_unsafe_blocks)]

#[cfg(not(all(target_arch = "x86_64", target_os = "linux")))]
compile_error!("the proved library is built for Linux on x86-64 alone");

mod argument;
mod builder;
mod columns;
mod format;
mod import;
mod limits;
mod listing;
mod lone;
mod raw;
mod refusal;
pub mod wah;
mod writer;

/// The examples of the repository's pages run as tests.
#[cfg(doctest)]
mod pages {
    #[doc = include_str!("../../../README.md")]
    struct Readme;
    #[doc = include_str!("../../../docs/FORMAT.md")]
    struct Format;
    #[doc = include_str!("../../../docs/REFUSALS.md")]
    struct Refusals;
    #[doc = include_str!("../../../docs/QUESTIONS.md")]
    struct Questions;
}

pub use argument::{BadArgument, BadColumn};
pub use builder::{index_of, IndexBuilder};
pub use columns::{difference_or_zero, largest, signed_difference, signed_value, smaller, smallest, sum, value};
pub use format::Format;
pub use import::{import, import_java, NotImported};
pub use limits::*;
pub use listing::{set_rows, spells, SetRows, Spell, Spells};
pub use refusal::Refusal;
pub use writer::{append, begin, AppendState, Writer};

/// A body that answers a question over a list.
#[derive(Clone, Copy, Debug, PartialEq, Eq, Hash)]
#[must_use = "the answer is only so many words at the front of the buffer"]
#[non_exhaustive]
pub struct Answer {
    /// How many words it has, at the front of the buffer.
    pub words: usize,
    /// How many stretches it was made of: the number of different segments at which a piece of a named bitmap ends.
    pub stretches: u32,
}

/// Whether a row is set, and the first and the last row of its piece, as the body is written. A **piece** in EWAH is
/// the clean segments that one marker counts, or one dirty word; in WAH it is one fill or one literal. Pad bits are no
/// rows, so the last piece ends with the last row.
///
/// In clean segments every row from `first` to `last` is set or clear as the row asked for. Rows just outside may be
/// so too, in canonical form as in any other: clean segments are whole ones, a marker counts at most [`MOST_CLEAN`] of
/// them, and a mixed segment may begin or end with such rows. In a dirty word or a literal, which has at most
/// [`Format::segment_rows`] rows, the others may be different. So this does not tell how far such rows go on: of set
/// rows [`spells`] does, and [`wah::spells`] in WAH.
///
/// A body's pieces can be gone through from row 0 on, always to the row behind `last`. Each of these calls walks the
/// body anew, so together they can take a time that grows with the square of the number of pieces. To list rows use
/// [`set_rows`] or [`spells`], or those of [`wah`].
///
/// ```
/// use zvonurel::{body_row, Row};
///
/// // 96 rows, of which rows 5 and 64 are set: a dirty word, 32 clear rows, a dirty word
/// let body = [0x20000, 0x20, 0x20002, 0x1];
/// assert_eq!(body_row(&body, 96, 5), Ok(Row { set: true, first: 0, last: 31 }));
/// assert_eq!(body_row(&body, 96, 32), Ok(Row { set: false, first: 32, last: 63 }));
/// // the rows behind are clear too, but in another piece
/// assert_eq!(body_row(&body, 96, 65), Ok(Row { set: false, first: 64, last: 95 }));
/// ```
#[derive(Clone, Copy, Debug, PartialEq, Eq, Hash)]
pub struct Row {
    /// Whether the row is set.
    pub set: bool,
    /// The first row of its piece.
    pub first: u32,
    /// The last row of that piece.
    pub last: u32,
}

impl Row {
    fn of(told: &raw::Flag) -> Row {
        Row { set: told.value == 1, first: told.first, last: told.last }
    }
}

/// The library's number 0 says that the call was not refused. At 8 `argument` is asked which argument it was.
fn settled<T>(
    number: u32,
    bitmap: u32,
    word: u64,
    value: T,
    argument: impl FnOnce() -> Option<BadArgument>,
) -> Result<T, Refusal> {
    match number {
        0 => Ok(value),
        Refusal::BAD_ARGUMENT => Err(Refusal { number, bitmap, word, argument: argument() }),
        _ => Err(Refusal { number, bitmap, word, argument: None }),
    }
}

/// A call that has no argument to refuse beside its words and its buffer.
fn none() -> Option<BadArgument> {
    None
}

/// A number of words within a slice that the caller lent, so it fits.
fn words(n: u64) -> usize {
    n as usize
}

// ---- one body alone in EWAH; `wah` has the same for WAH

/// Whether a body in EWAH of that many rows is sound.
///
/// # Errors
/// 3 for too many rows; 5, 6 or 7 for the body's first fault.
///
/// ```
/// // rows 0 and 39 of 40
/// assert!(zvonurel::check_body(&[0x40000, 0x1, 0x80], 40).is_ok());
/// // all of them: a run of ones over the last segment means its real rows
/// assert!(zvonurel::check_body(&[0x5], 40).is_ok());
/// // a dirty word with a bit behind row 39
/// assert_eq!(zvonurel::check_body(&[0x40000, 0x1, 0x180], 40).unwrap_err().number, 7);
/// ```
pub fn check_body(body: &[u32], rows: u32) -> Result<(), Refusal> {
    lone::check_body(Format::Ewah, body, rows)
}

/// Whether a row of a body in EWAH is set, and which rows the piece has that it lies in: see [`Row`].
///
/// # Errors
/// 3 for too many rows; 5, 6 or 7 for the body's first fault; 8 where there is no such row.
///
/// ```
/// use zvonurel::{body_row, Row};
///
/// // rows 0 and 39 of 40, in two dirty words
/// assert_eq!(body_row(&[0x40000, 0x1, 0x80], 40, 39), Ok(Row { set: true, first: 32, last: 39 }));
/// // all 40, in one run
/// assert_eq!(body_row(&[0x5], 40, 39), Ok(Row { set: true, first: 0, last: 39 }));
/// ```
pub fn body_row(body: &[u32], rows: u32, row: u32) -> Result<Row, Refusal> {
    lone::body_row(Format::Ewah, body, rows, row)
}

/// How many rows of a body in EWAH are set.
///
/// # Errors
/// 3 for too many rows; 5, 6 or 7 for the body's first fault.
///
/// ```
/// assert_eq!(zvonurel::body_count(&[0x40000, 0x1, 0x80], 40), Ok(2));
/// ```
pub fn body_count(body: &[u32], rows: u32) -> Result<u32, Refusal> {
    lone::body_count(Format::Ewah, body, rows)
}

/// The nth set row of a body in EWAH, counted from 0.
///
/// # Errors
/// 3 for too many rows; 5, 6 or 7 for the body's first fault; 8 where n or fewer rows are set.
///
/// ```
/// let body = [0x40000, 0x1, 0x80];
/// assert_eq!(zvonurel::body_nth(&body, 40, 1), Ok(39));
/// assert_eq!(zvonurel::body_nth(&body, 40, 2).unwrap_err().number, 8);
/// ```
pub fn body_nth(body: &[u32], rows: u32, n: u32) -> Result<u32, Refusal> {
    lone::body_nth(Format::Ewah, body, rows, n)
}

/// Writes the rows of a body in EWAH as plain words, one for each [`WORD_BITS`] rows, and returns how many.
///
/// # Errors
/// 3 for too many rows; 5, 6 or 7 for the body's first fault; 9 for a short buffer.
///
/// ```
/// let mut plain = [0; 2];
/// assert_eq!(zvonurel::expand(&[0x40000, 0x1, 0x80], 40, &mut plain), Ok(2));
/// assert_eq!(plain, [0x1, 0x80]);
/// ```
pub fn expand(body: &[u32], rows: u32, out: &mut [u32]) -> Result<usize, Refusal> {
    lone::expand(Format::Ewah, body, rows, out)
}

/// Writes plain words as a body in EWAH, in the one form with the fewest words, and returns how many.
///
/// # Errors
/// 3 for too many rows; 8 unless there is one word for each [`WORD_BITS`] rows; 7 where the last has a bit behind the
/// last row; 9 for a short buffer.
///
/// ```
/// let mut body = [0; 3];
/// assert_eq!(zvonurel::compress(40, &[0x1, 0x80], &mut body), Ok(3));
/// assert_eq!(body, [0x40000, 0x1, 0x80]);
/// ```
pub fn compress(rows: u32, plain: &[u32], out: &mut [u32]) -> Result<usize, Refusal> {
    lone::compress(Format::Ewah, rows, plain, out)
}

/// Writes the rows of a body in EWAH as such a body again, in the one form with the fewest words, and returns how many
/// words.
///
/// # Errors
/// 3 for too many rows; 5, 6 or 7 for the body's first fault; 9 for a short buffer.
///
/// ```
/// // 40 rows, all set: the last 8 as a dirty word, and then as part of the run
/// let mut out = [0; 1];
/// assert_eq!(zvonurel::to_ewah(&[0x20003, 0xFF], 40, &mut out), Ok(1));
/// assert_eq!(out, [0x5]);
/// ```
pub fn to_ewah(body: &[u32], rows: u32, out: &mut [u32]) -> Result<usize, Refusal> {
    lone::rewrite((Format::Ewah, Format::Ewah), body, rows, out)
}

/// Writes the rows of a body in EWAH as a body in WAH, in the one form with the fewest words, and returns how many
/// words. [`wah::to_ewah`] goes the other way.
///
/// # Errors
/// 3 for too many rows; 5, 6 or 7 for the body's first fault; 9 for a short buffer.
///
/// ```
/// // rows 0 and 39 of 40
/// let mut out = [0; 2];
/// assert_eq!(zvonurel::to_wah(&[0x40000, 0x1, 0x80], 40, &mut out), Ok(2));
/// assert_eq!(out, [0x1, 0x100]);
/// ```
pub fn to_wah(body: &[u32], rows: u32, out: &mut [u32]) -> Result<usize, Refusal> {
    lone::rewrite((Format::Ewah, Format::Wah), body, rows, out)
}

// ---- an index, in either format

/// Whether an index is sound.
///
/// # Errors
/// 1 to 7, or 10, for the index's first fault.
///
/// ```
/// assert!(zvonurel::check(&[1, 0, 0]).is_ok());
/// let refusal = zvonurel::check(&[]).unwrap_err();
/// assert_eq!(refusal.to_string(), "the index has 0 words, too few for its head and its contents (refusal 1)");
/// ```
pub fn check(index: &[u32]) -> Result<(), Refusal> {
    // SAFETY: each pointer is a slice's, with its length.
    let told = unsafe { raw::zv_check(index.as_ptr(), index.len()) };
    settled(told.number, told.bitmap, told.word, (), none)
}

/// Why [`bitmap`] is refused; `None` where it is not.
///
/// ```
/// let index = [1, 64, 1, 5, 1, 0x4];
/// assert_eq!(zvonurel::bitmap_refusal(&index, 0), None);
/// assert_eq!(zvonurel::bitmap_refusal(&index, 1).unwrap().number, 8);
/// ```
#[must_use]
pub fn bitmap_refusal(index: &[u32], k: u32) -> Option<Refusal> {
    // SAFETY: each pointer is a slice's, with its length.
    let told = unsafe { raw::zv_bitmap_refusal(index.as_ptr(), index.len(), k) };
    settled(told.number, told.bitmap, told.word, (), || argument::bitmap(index, k)).err()
}

/// The part of the index that is bitmap k's body, in the index's format: the caller's own words.
///
/// # Errors
/// 1 to 7, or 10, for the index's first fault; 8 where there is no bitmap k.
///
/// ```
/// let index = [1, 64, 1, 5, 1, 0x4];
/// assert_eq!(zvonurel::bitmap(&index, 0)?, &index[5..6]);
/// # Ok::<(), zvonurel::Refusal>(())
/// ```
pub fn bitmap(index: &[u32], k: u32) -> Result<&[u32], Refusal> {
    // SAFETY: each pointer is a slice's, with its length.
    let told = unsafe { raw::zv_bitmap(index.as_ptr(), index.len(), k) };
    let (start, length) = (words(told.start), words(told.length));
    settled(told.number, told.bitmap, told.word, &index[start..start + length], || argument::bitmap(index, k))
}

/// Whether a row of bitmap k is set, and which rows the piece of its body has that the row lies in: see [`Row`].
///
/// # Errors
/// 1 to 7, or 10, for the index's first fault; 8 where there is no such bitmap or row.
///
/// ```
/// use zvonurel::Row;
///
/// let index = [1, 4, 3, 9, 2, 11, 2, 13, 2, 0x20000, 0x3, 0x20000, 0xE, 0x20000, 0x8];
/// assert_eq!(zvonurel::row(&index, 0, 1), Ok(Row { set: true, first: 0, last: 3 }));
/// ```
pub fn row(index: &[u32], k: u32, row: u32) -> Result<Row, Refusal> {
    // SAFETY: each pointer is a slice's, with its length.
    let told = unsafe { raw::zv_row(index.as_ptr(), index.len(), k, row) };
    settled(told.number, told.bitmap, told.word, Row::of(&told), || argument::row(index, k, row))
}

/// How many rows of bitmap k are set.
///
/// # Errors
/// 1 to 7, or 10, for the index's first fault; 8 where there is no bitmap k.
///
/// ```
/// let index = [1, 4, 3, 9, 2, 11, 2, 13, 2, 0x20000, 0x3, 0x20000, 0xE, 0x20000, 0x8];
/// assert_eq!(zvonurel::count(&index, 1), Ok(3));
/// ```
pub fn count(index: &[u32], k: u32) -> Result<u32, Refusal> {
    // SAFETY: each pointer is a slice's, with its length.
    let told = unsafe { raw::zv_count(index.as_ptr(), index.len(), k) };
    settled(told.number, told.bitmap, told.word, told.value, || argument::bitmap(index, k))
}

/// The nth set row of bitmap k, counted from 0.
///
/// # Errors
/// 1 to 7, or 10, for the index's first fault; 8 where there is no bitmap k, or n or fewer of its rows are set.
///
/// ```
/// let index = [1, 4, 3, 9, 2, 11, 2, 13, 2, 0x20000, 0x3, 0x20000, 0xE, 0x20000, 0x8];
/// assert_eq!(zvonurel::nth(&index, 1, 2), Ok(3));
/// ```
pub fn nth(index: &[u32], k: u32, n: u32) -> Result<u32, Refusal> {
    // SAFETY: each pointer is a slice's, with its length.
    let told = unsafe { raw::zv_nth(index.as_ptr(), index.len(), k, n) };
    settled(told.number, told.bitmap, told.word, told.value, || argument::nth(index, k, n))
}

/// Writes the rows of bitmap k as plain words, one for each [`WORD_BITS`] rows, and returns how many.
///
/// # Errors
/// 1 to 7, or 10, for the index's first fault; 8 where there is no bitmap k; 9 for a short buffer.
///
/// ```
/// let index = [1, 4, 3, 9, 2, 11, 2, 13, 2, 0x20000, 0x3, 0x20000, 0xE, 0x20000, 0x8];
/// let mut plain = [0; 1];
/// assert_eq!(zvonurel::expand_bitmap(&index, 1, &mut plain), Ok(1));
/// assert_eq!(plain, [0b1110]);
/// ```
pub fn expand_bitmap(index: &[u32], k: u32, out: &mut [u32]) -> Result<usize, Refusal> {
    // SAFETY: each pointer is a slice's, with its length.
    let told = unsafe { raw::zv_expand_bitmap(index.as_ptr(), index.len(), k, out.as_mut_ptr(), out.len()) };
    settled(told.number, told.bitmap, told.word, words(told.words), || argument::bitmap(index, k))
}

// ---- an index or a bitmap of it, rewritten

fn bitmap_to(format: Format, index: &[u32], k: u32, out: &mut [u32]) -> Result<usize, Refusal> {
    let call = match format {
        Format::Ewah => raw::zv_bitmap_to_ewah,
        Format::Wah => raw::zv_bitmap_to_wah,
    };
    // SAFETY: each pointer is a slice's, with its length.
    let told = unsafe { call(index.as_ptr(), index.len(), k, out.as_mut_ptr(), out.len()) };
    settled(told.number, told.bitmap, told.word, words(told.words), || argument::bitmap(index, k))
}

/// Writes the rows of bitmap k as a body in EWAH, whatever the index's format, in the one form with the fewest words,
/// and returns how many words.
///
/// # Errors
/// 1 to 7, or 10, for the index's first fault; 8 where there is no bitmap k; 9 for a short buffer.
///
/// ```
/// // three bitmaps of four rows in WAH
/// let index = [2, 4, 3, 9, 1, 10, 1, 11, 1, 0x3, 0xE, 0x8];
/// let mut body = [0; 2];
/// assert_eq!(zvonurel::bitmap_to_ewah(&index, 1, &mut body), Ok(2));
/// assert_eq!(body, [0x20000, 0xE]);
/// ```
pub fn bitmap_to_ewah(index: &[u32], k: u32, out: &mut [u32]) -> Result<usize, Refusal> {
    bitmap_to(Format::Ewah, index, k, out)
}

/// Writes the rows of bitmap k as a body in WAH, whatever the index's format, in the one form with the fewest words,
/// and returns how many words.
///
/// # Errors
/// 1 to 7, or 10, for the index's first fault; 8 where there is no bitmap k; 9 for a short buffer.
///
/// ```
/// let index = [1, 4, 3, 9, 2, 11, 2, 13, 2, 0x20000, 0x3, 0x20000, 0xE, 0x20000, 0x8];
/// let mut body = [0; 1];
/// assert_eq!(zvonurel::bitmap_to_wah(&index, 1, &mut body), Ok(1));
/// assert_eq!(body, [0xE]);
/// ```
pub fn bitmap_to_wah(index: &[u32], k: u32, out: &mut [u32]) -> Result<usize, Refusal> {
    bitmap_to(Format::Wah, index, k, out)
}

fn index_to(format: Format, index: &[u32], out: &mut [u32]) -> Result<usize, Refusal> {
    let call = match format {
        Format::Ewah => raw::zv_index_to_ewah,
        Format::Wah => raw::zv_index_to_wah,
    };
    // SAFETY: each pointer is a slice's, with its length.
    let told = unsafe { call(index.as_ptr(), index.len(), out.as_mut_ptr(), out.len()) };
    settled(told.number, told.bitmap, told.word, words(told.words), none)
}

/// Writes all bitmaps of an index, in their order, as a new index in EWAH, whatever the index's format, and returns
/// how many words. Each body is in the one form with the fewest words.
///
/// # Errors
/// 1 to 7, or 10, for the index's first fault; 9 for a short buffer, or a new index of more than [`MOST_INDEX_WORDS`]
/// words. [`Format::most_new_index_words`] says how long is long enough.
///
/// ```
/// // 40 rows in WAH, all of them set, and rows 0 and 39
/// let archive = [2, 40, 2, 7, 1, 8, 2, 0xC000_0002, 0x1, 0x100];
/// let mut out = [0; zvonurel::Format::Ewah.most_new_index_words(40, 2)];
/// let words = zvonurel::index_to_ewah(&archive, &mut out)?;
/// assert_eq!(out[..words], [1, 40, 2, 7, 1, 8, 3, 0x5, 0x40000, 0x1, 0x80]);
/// # Ok::<(), zvonurel::Refusal>(())
/// ```
pub fn index_to_ewah(index: &[u32], out: &mut [u32]) -> Result<usize, Refusal> {
    index_to(Format::Ewah, index, out)
}

/// Writes all bitmaps of an index, in their order, as a new index in WAH, whatever the index's format, and returns how
/// many words. Each body is in the one form with the fewest words.
///
/// # Errors
/// 1 to 7, or 10, for the index's first fault; 9 for a short buffer, or a new index of more than [`MOST_INDEX_WORDS`]
/// words. [`Format::most_new_index_words`] says how long is long enough.
///
/// ```
/// let index = [1, 40, 2, 7, 1, 8, 3, 0x5, 0x40000, 0x1, 0x80];
/// let mut out = [0; zvonurel::Format::Wah.most_new_index_words(40, 2)];
/// let words = zvonurel::index_to_wah(&index, &mut out)?;
/// assert_eq!(out[..words], [2, 40, 2, 7, 1, 8, 2, 0xC000_0002, 0x1, 0x100]);
/// # Ok::<(), zvonurel::Refusal>(())
/// ```
pub fn index_to_wah(index: &[u32], out: &mut [u32]) -> Result<usize, Refusal> {
    index_to(Format::Wah, index, out)
}

// ---- two bitmaps of an index, or one; the answer is in the index's format

/// Writes the rows that both bitmaps have, as a body in the one form with the fewest words, and returns how many words.
///
/// # Errors
/// 1 to 7, or 10, for the index's first fault; 8 where one of the bitmaps is not there; 9 for a short buffer.
///
/// ```
/// let index = [1, 8, 2, 7, 2, 9, 2, 0x20000, 0x32, 0x20000, 0xB0];
/// let mut body = [0; 2];
/// assert_eq!(zvonurel::and(&index, 0, 1, &mut body), Ok(2));
/// assert_eq!(body, [0x20000, 0x30]);
/// ```
pub fn and(index: &[u32], j: u32, k: u32, out: &mut [u32]) -> Result<usize, Refusal> {
    // SAFETY: each pointer is a slice's, with its length.
    let told = unsafe { raw::zv_and(index.as_ptr(), index.len(), j, k, out.as_mut_ptr(), out.len()) };
    settled(told.number, told.bitmap, told.word, words(told.words), || argument::two(index, j, k))
}

/// Writes the rows that one or both bitmaps have, as a body in the one form with the fewest words, and returns how
/// many words.
///
/// # Errors
/// 1 to 7, or 10, for the index's first fault; 8 where one of the bitmaps is not there; 9 for a short buffer.
///
/// ```
/// let index = [1, 8, 2, 7, 2, 9, 2, 0x20000, 0x32, 0x20000, 0xB0];
/// let mut body = [0; 2];
/// assert_eq!(zvonurel::or(&index, 0, 1, &mut body), Ok(2));
/// assert_eq!(body, [0x20000, 0xB2]);
/// ```
pub fn or(index: &[u32], j: u32, k: u32, out: &mut [u32]) -> Result<usize, Refusal> {
    // SAFETY: each pointer is a slice's, with its length.
    let told = unsafe { raw::zv_or(index.as_ptr(), index.len(), j, k, out.as_mut_ptr(), out.len()) };
    settled(told.number, told.bitmap, told.word, words(told.words), || argument::two(index, j, k))
}

/// Writes the rows that just one of the two bitmaps has, as a body in the one form with the fewest words, and returns
/// how many words.
///
/// # Errors
/// 1 to 7, or 10, for the index's first fault; 8 where one of the bitmaps is not there; 9 for a short buffer.
///
/// ```
/// let index = [1, 8, 2, 7, 2, 9, 2, 0x20000, 0x32, 0x20000, 0xB0];
/// let mut body = [0; 2];
/// assert_eq!(zvonurel::xor(&index, 0, 1, &mut body), Ok(2));
/// assert_eq!(body, [0x20000, 0x82]);
/// ```
pub fn xor(index: &[u32], j: u32, k: u32, out: &mut [u32]) -> Result<usize, Refusal> {
    // SAFETY: each pointer is a slice's, with its length.
    let told = unsafe { raw::zv_xor(index.as_ptr(), index.len(), j, k, out.as_mut_ptr(), out.len()) };
    settled(told.number, told.bitmap, told.word, words(told.words), || argument::two(index, j, k))
}

/// Writes the rows that bitmap j has and bitmap k has not, as a body in the one form with the fewest words, and
/// returns how many words.
///
/// # Errors
/// 1 to 7, or 10, for the index's first fault; 8 where one of the bitmaps is not there; 9 for a short buffer.
///
/// ```
/// let index = [1, 8, 2, 7, 2, 9, 2, 0x20000, 0x32, 0x20000, 0xB0];
/// let mut body = [0; 2];
/// assert_eq!(zvonurel::and_not(&index, 0, 1, &mut body), Ok(2));
/// assert_eq!(body, [0x20000, 0x02]);
/// ```
pub fn and_not(index: &[u32], j: u32, k: u32, out: &mut [u32]) -> Result<usize, Refusal> {
    // SAFETY: each pointer is a slice's, with its length.
    let told = unsafe { raw::zv_and_not(index.as_ptr(), index.len(), j, k, out.as_mut_ptr(), out.len()) };
    settled(told.number, told.bitmap, told.word, words(told.words), || argument::two(index, j, k))
}

/// Writes the rows that bitmap k has not, as a body in the one form with the fewest words, and returns how many words.
///
/// # Errors
/// 1 to 7, or 10, for the index's first fault; 8 where there is no bitmap k; 9 for a short buffer.
///
/// ```
/// let index = [1, 8, 2, 7, 2, 9, 2, 0x20000, 0x32, 0x20000, 0xB0];
/// let mut body = [0; 2];
/// assert_eq!(zvonurel::not(&index, 0, &mut body), Ok(2));
/// assert_eq!(body, [0x20000, 0xCD]);
/// ```
pub fn not(index: &[u32], k: u32, out: &mut [u32]) -> Result<usize, Refusal> {
    // SAFETY: each pointer is a slice's, with its length.
    let told = unsafe { raw::zv_not(index.as_ptr(), index.len(), k, out.as_mut_ptr(), out.len()) };
    settled(told.number, told.bitmap, told.word, words(told.words), || argument::bitmap(index, k))
}

// ---- a list of bitmap numbers, each counted as often as it is named

/// Writes the rows that at least t of the list have, as a body in the one form with the fewest words. Twice the words
/// of the named bodies is always room enough.
///
/// # Errors
/// 1 to 7, or 10, for the index's first fault; 8 for a list of no numbers, more than [`MOST_NAMED`] or one that is no
/// bitmap's, or a t of 0 or above the list's length; 9 for a short buffer.
///
/// ```
/// let index = [1, 4, 3, 9, 2, 11, 2, 13, 2, 0x20000, 0x3, 0x20000, 0xE, 0x20000, 0x8];
/// let mut out = [0; 12];
/// let answer = zvonurel::threshold(&index, &[0, 1, 2], 2, &mut out)?;
/// assert_eq!((answer.words, answer.stretches), (2, 1));
/// assert_eq!(out[..2], [0x20000, 0b1010]);
/// # Ok::<(), zvonurel::Refusal>(())
/// ```
pub fn threshold(index: &[u32], list: &[u32], t: u32, out: &mut [u32]) -> Result<Answer, Refusal> {
    // SAFETY: each pointer is a slice's, with its length.
    let told = unsafe {
        raw::zv_threshold(index.as_ptr(), index.len(), list.as_ptr(), list.len(), t, out.as_mut_ptr(), out.len())
    };
    settled(told.number, told.bitmap, told.word, Answer { words: words(told.words), stretches: told.stretches }, || {
        argument::threshold(index, list, t)
    })
}

/// Writes the rows for which the table has a 1 at the number of the list that have the row, as such a body. The table
/// has one entry, 0 or 1, for each number from 0 to the list's length.
///
/// # Errors
/// 1 to 7, or 10, for the index's first fault; 8 for a bad list or table; 9 for a short buffer.
///
/// ```
/// let index = [1, 4, 3, 9, 2, 11, 2, 13, 2, 0x20000, 0x3, 0x20000, 0xE, 0x20000, 0x8];
/// let mut out = [0; 12];
/// // just one of the three
/// let answer = zvonurel::symmetric(&index, &[0, 1, 2], &[0, 1, 0, 0], &mut out)?;
/// assert_eq!(out[..answer.words], [0x20000, 0b0101]);
/// # Ok::<(), zvonurel::Refusal>(())
/// ```
pub fn symmetric(index: &[u32], list: &[u32], table: &[u32], out: &mut [u32]) -> Result<Answer, Refusal> {
    // SAFETY: each pointer is a slice's, with its length.
    let told = unsafe {
        raw::zv_symmetric(
            index.as_ptr(),
            index.len(),
            list.as_ptr(),
            list.len(),
            table.as_ptr(),
            table.len(),
            out.as_mut_ptr(),
            out.len(),
        )
    };
    settled(told.number, told.bitmap, told.word, Answer { words: words(told.words), stretches: told.stretches }, || {
        argument::symmetric(index, list, table)
    })
}

/// For each c from 0 to [`MOST_NAMED`], how many rows exactly c of the list have.
///
/// # Errors
/// 1 to 7, or 10, for the index's first fault; 8 for a bad list.
///
/// ```
/// let index = [1, 4, 3, 9, 2, 11, 2, 13, 2, 0x20000, 0x3, 0x20000, 0xE, 0x20000, 0x8];
/// let counts = zvonurel::histogram(&index, &[0, 1, 2])?;
/// assert_eq!(counts[..4], [0, 2, 2, 0]);
/// # Ok::<(), zvonurel::Refusal>(())
/// ```
pub fn histogram(index: &[u32], list: &[u32]) -> Result<[u32; HISTOGRAM_COUNTS], Refusal> {
    // SAFETY: each pointer is a slice's, with its length.
    let told = unsafe { raw::zv_histogram(index.as_ptr(), index.len(), list.as_ptr(), list.len()) };
    settled(told.number, told.bitmap, told.word, told.counts, || argument::list(index, list))
}

//! The set rows of a body, one by one or spell by spell.
//!
//! The body is expanded once, by the proved call, and the bits are scanned: pad bits are zero, so no row past the last
//! can come up.

use std::iter::FusedIterator;
use std::ops::Range;

use crate::{lone, segments, Format, Refusal, WORD_BITS};

/// The body's rows as plain words. A wrong body is refused before room for its rows is taken.
fn plain_words(format: Format, body: &[u32], rows: u32) -> Result<Vec<u32>, Refusal> {
    lone::check_body(format, body, rows)?;
    let mut plain = vec![0; segments(rows)];
    lone::expand(format, body, rows, &mut plain)?;
    Ok(plain)
}

/// The first row from `from` on whose bit is not that of `flip`.
fn next_row(plain: &[u32], flip: u32, from: usize) -> Option<usize> {
    let segment = from / WORD_BITS;
    let first = (plain.get(segment)? ^ flip) & (u32::MAX << (from % WORD_BITS));
    if first != 0 {
        return Some(segment * WORD_BITS + first.trailing_zeros() as usize);
    }
    let rest = &plain[segment + 1..];
    let past = rest.iter().position(|word| word ^ flip != 0)?;
    Some((segment + 1 + past) * WORD_BITS + (rest[past] ^ flip).trailing_zeros() as usize)
}

/// The set rows of a body in EWAH, lowest first.
///
/// # Errors
/// 3 for too many rows; 5, 6 or 7 for the body's first fault.
///
/// ```
/// let body = [0x40000, 0x1, 0x80];
/// assert_eq!(zvonurel::set_rows(&body, 40)?.collect::<Vec<_>>(), [0, 39]);
///
/// // of bitmap 1 of an index
/// let index = [1, 4, 3, 9, 2, 11, 2, 13, 2, 0x20000, 0x3, 0x20000, 0xE, 0x20000, 0x8];
/// let rows = zvonurel::set_rows(zvonurel::bitmap(&index, 1)?, index[1])?;
/// assert_eq!(rows.collect::<Vec<_>>(), [1, 2, 3]);
/// # Ok::<(), zvonurel::Refusal>(())
/// ```
pub fn set_rows(body: &[u32], rows: u32) -> Result<SetRows, Refusal> {
    SetRows::of(Format::Ewah, body, rows)
}

/// The spells of a body in EWAH, first to last: its unbroken runs of set rows, each as long as it goes.
///
/// # Errors
/// 3 for too many rows; 5, 6 or 7 for the body's first fault.
///
/// ```
/// use zvonurel::Spell;
///
/// // rows 30 to 33, and row 63
/// let body = [0x40000, 0xC000_0000, 0x8000_0003];
/// let spells: Vec<Spell> = zvonurel::spells(&body, 64)?.collect();
/// assert_eq!(spells, [Spell { first: 30, length: 4 }, Spell { first: 63, length: 1 }]);
/// # Ok::<(), zvonurel::Refusal>(())
/// ```
pub fn spells(body: &[u32], rows: u32) -> Result<Spells, Refusal> {
    Spells::of(Format::Ewah, body, rows)
}

/// Iterates over the set rows of a body: see [`set_rows`], and [`wah::set_rows`](crate::wah::set_rows).
#[derive(Clone, Debug)]
#[must_use = "an iterator does nothing until it is asked"]
pub struct SetRows {
    plain: Vec<u32>,
    /// Every set row below this one was given.
    at: usize,
    /// How many are still to come.
    left: usize,
}

impl SetRows {
    pub(crate) fn of(format: Format, body: &[u32], rows: u32) -> Result<SetRows, Refusal> {
        let plain = plain_words(format, body, rows)?;
        let left = plain.iter().map(|word| word.count_ones() as usize).sum();
        Ok(SetRows { plain, at: 0, left })
    }
}

impl Iterator for SetRows {
    type Item = u32;

    fn next(&mut self) -> Option<u32> {
        let row = next_row(&self.plain, 0, self.at)?;
        self.at = row + 1;
        self.left -= 1;
        Some(row as u32)
    }

    fn size_hint(&self) -> (usize, Option<usize>) {
        (self.left, Some(self.left))
    }

    fn count(self) -> usize {
        self.left
    }
}

impl ExactSizeIterator for SetRows {}
impl FusedIterator for SetRows {}

/// Rows that are set, one behind the other: the row before the first and the row behind the last are not.
#[derive(Clone, Copy, Debug, PartialEq, Eq, PartialOrd, Ord, Hash)]
pub struct Spell {
    /// The first row.
    pub first: u32,
    /// How many rows.
    pub length: u32,
}

impl Spell {
    /// The rows themselves.
    ///
    /// ```
    /// assert!(zvonurel::Spell { first: 30, length: 4 }.rows().eq([30, 31, 32, 33]));
    /// ```
    #[must_use]
    pub fn rows(&self) -> Range<u32> {
        self.first..self.first + self.length
    }
}

/// Iterates over the spells of a body: see [`spells`], and [`wah::spells`](crate::wah::spells).
#[derive(Clone, Debug)]
#[must_use = "an iterator does nothing until it is asked"]
pub struct Spells {
    plain: Vec<u32>,
    rows: usize,
    /// Every spell that begins below this row was given.
    at: usize,
}

impl Spells {
    pub(crate) fn of(format: Format, body: &[u32], rows: u32) -> Result<Spells, Refusal> {
        Ok(Spells { plain: plain_words(format, body, rows)?, rows: rows as usize, at: 0 })
    }
}

impl Iterator for Spells {
    type Item = Spell;

    fn next(&mut self) -> Option<Spell> {
        let first = next_row(&self.plain, 0, self.at)?;
        self.at = next_row(&self.plain, u32::MAX, first).unwrap_or(self.rows);
        Some(Spell { first: first as u32, length: (self.at - first) as u32 })
    }
}

impl FusedIterator for Spells {}

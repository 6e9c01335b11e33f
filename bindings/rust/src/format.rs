//! The two formats, and the sizes that follow from one.

use crate::{ENTRY_WORDS, HEAD_WORDS, INDEX_KIND, MOST_DIRTY, MOST_INDEX_WORDS};
use crate::{WAH_INDEX_KIND, WAH_SEGMENT_ROWS, WORD_BITS};

/// How the words of a body say which rows are set. All bodies of an index are in one format, and word 0 tells which.
///
/// ```
/// use zvonurel::Format;
///
/// // 62 rows, none of them set: a run of two segments in either
/// let index = zvonurel::index_of(62, &[[0x4]]);
/// assert_eq!(Format::of_index(&index), Some(Format::Ewah));
/// let mut out = [0; Format::Wah.most_new_index_words(62, 1)];
/// let words = zvonurel::index_to_wah(&index, &mut out)?;
/// assert_eq!(Format::of_index(&out), Some(Format::Wah));
/// assert_eq!(out[..words], [2, 62, 1, 5, 1, 0x8000_0002]);
/// # Ok::<(), zvonurel::Refusal>(())
/// ```
#[derive(Clone, Copy, Debug, PartialEq, Eq, Hash)]
pub enum Format {
    /// EWAH: markers, each with its dirty words behind it, over segments of [`WORD_BITS`] rows.
    Ewah,
    /// WAH: literals and fills, over segments of [`WAH_SEGMENT_ROWS`] rows. [`wah`](crate::wah) has the calls on a
    /// body.
    Wah,
}

impl Format {
    /// The format that word 0 of an index tells, if it tells one. Nothing else of the index is looked at:
    /// [`check`](crate::check) says whether it is sound.
    ///
    /// ```
    /// use zvonurel::Format;
    ///
    /// assert_eq!(Format::of_index(&[2, 40, 0]), Some(Format::Wah));
    /// assert_eq!(Format::of_index(&[3, 40, 0]), None);
    /// ```
    #[must_use]
    pub fn of_index(index: &[u32]) -> Option<Format> {
        [Format::Ewah, Format::Wah].into_iter().find(|format| index.first() == Some(&format.index_kind()))
    }

    /// What word 0 of an index in this format says: [`INDEX_KIND`] or [`WAH_INDEX_KIND`].
    ///
    /// ```
    /// assert_eq!(zvonurel::Format::Wah.index_kind(), 2);
    /// ```
    #[must_use]
    pub const fn index_kind(self) -> u32 {
        match self {
            Format::Ewah => INDEX_KIND,
            Format::Wah => WAH_INDEX_KIND,
        }
    }

    /// The rows of a segment: [`WORD_BITS`] or [`WAH_SEGMENT_ROWS`]. Row r is bit r % n, counted from the lowest, of
    /// segment r / n, where n are these.
    ///
    /// ```
    /// assert_eq!(zvonurel::Format::Wah.segment_rows(), 31);
    /// ```
    #[must_use]
    pub const fn segment_rows(self) -> usize {
        match self {
            Format::Ewah => WORD_BITS,
            Format::Wah => WAH_SEGMENT_ROWS,
        }
    }

    /// The segments of that many rows. In EWAH they are also the plain words, which have [`WORD_BITS`] rows each for
    /// bitmaps in WAH too: of these [`segments`](crate::segments) says how many.
    ///
    /// ```
    /// use zvonurel::Format;
    ///
    /// assert_eq!(Format::Ewah.segments(64), 2);
    /// assert_eq!(Format::Wah.segments(64), 3);
    /// ```
    #[must_use]
    pub const fn segments(self, rows: u32) -> usize {
        (rows as u64).div_ceil(self.segment_rows() as u64) as usize
    }

    /// Room for every body of that many rows that the library writes in this format: none in canonical form has more
    /// words.
    ///
    /// ```
    /// use zvonurel::Format;
    ///
    /// assert_eq!(Format::Ewah.most_body_words(40), 3);
    /// assert_eq!(Format::Wah.most_body_words(40), 2);
    /// ```
    #[must_use]
    pub const fn most_body_words(self, rows: u32) -> usize {
        let segments = self.segments(rows);
        match self {
            Format::Ewah => segments + segments / MOST_DIRTY + 1,
            Format::Wah => segments,
        }
    }

    /// Room for every index of that many rows and bitmaps that the library writes in this format, such as by
    /// [`index_to_wah`](crate::index_to_wah). It is never above [`MOST_INDEX_WORDS`], since no longer index is written:
    /// a call that is refused such a buffer with 9 is refused any.
    ///
    /// ```
    /// use zvonurel::{Format, MOST_INDEX_WORDS, MOST_ROWS};
    ///
    /// assert_eq!(Format::Ewah.most_new_index_words(40, 2), 13);
    /// assert_eq!(Format::Wah.most_new_index_words(40, 2), 11);
    /// assert_eq!(Format::Wah.most_new_index_words(MOST_ROWS, 2), MOST_INDEX_WORDS);
    /// ```
    #[must_use]
    pub const fn most_new_index_words(self, rows: u32, bitmaps: usize) -> usize {
        let words = bitmaps.saturating_mul(ENTRY_WORDS + self.most_body_words(rows)).saturating_add(HEAD_WORDS);
        if words < MOST_INDEX_WORDS {
            words
        } else {
            MOST_INDEX_WORDS
        }
    }

    /// Room for every sum of two columns of that many rows of an index in this format, of which the wider has at most
    /// that many slices: [`sum`](crate::sum) is refused such a buffer only where the sum is longer than
    /// [`MOST_INDEX_WORDS`], and then it is refused any.
    ///
    /// A list of n numbers names n - 1 slices. The sum is an index of the existence bitmap and one slice more. So much
    /// room is enough for all that is made of two columns: [`signed_difference`](crate::signed_difference) writes as
    /// many slices, and [`smaller`](crate::smaller) and [`difference_or_zero`](crate::difference_or_zero) one fewer.
    ///
    /// ```
    /// use zvonurel::Format;
    ///
    /// assert_eq!(Format::Ewah.most_sum_words(8, 2), 19);
    /// assert_eq!(Format::Wah.most_sum_words(8, 2), 15);
    /// ```
    #[must_use]
    pub const fn most_sum_words(self, rows: u32, slices: usize) -> usize {
        self.most_new_index_words(rows, slices.saturating_add(2))
    }
}

//! Every limit and size, once.

use crate::Format;

/// The most rows that a bitmap can have.
pub const MOST_ROWS: u32 = 1_073_741_824;

/// The most bitmaps that an index can have.
pub const MOST_BITMAPS: u32 = 256;

/// The most words that an index can have.
pub const MOST_INDEX_WORDS: usize = 67_108_864;

/// The most numbers that a list can have.
pub const MOST_NAMED: usize = 256;

/// How many numbers a histogram has: one for each number of holders from 0 to [`MOST_NAMED`].
pub const HISTOGRAM_COUNTS: usize = MOST_NAMED + 1;

/// The fewest numbers that name a column: the existence bitmap's, and that of one slice.
pub const LEAST_COLUMN: usize = 2;

/// The most numbers that name a column: the existence bitmap's, and those of 32 slices.
pub const MOST_COLUMN: usize = 33;

/// The most numbers that name a column of which only a value is asked: a sum, or a signed difference, has one slice
/// more than the wider of the columns that it is made of.
pub const MOST_VALUE_COLUMN: usize = MOST_COLUMN + 1;

/// What word 0 of an index says where its bodies are in EWAH.
pub const INDEX_KIND: u32 = 1;

/// What word 0 of an index says where its bodies are in WAH.
pub const WAH_INDEX_KIND: u32 = 2;

/// The words of an index before its contents: [`INDEX_KIND`] or [`WAH_INDEX_KIND`], the rows and the number of
/// bitmaps.
pub const HEAD_WORDS: usize = 3;

/// The words of a bitmap's entry in the contents: where its body starts, and how many words it has.
pub const ENTRY_WORDS: usize = 2;

/// The most clean segments that one marker can count.
pub const MOST_CLEAN: usize = 65_535;

/// The most dirty words that one marker can count.
pub const MOST_DIRTY: usize = 32_767;

/// The lowest bit of a marker's clean count. The bit below it is the clean segments' value.
pub const CLEAN_SHIFT: u32 = 1;

/// The lowest bit of a marker's dirty count, which goes up to the highest bit.
pub const DIRTY_SHIFT: u32 = 17;

/// The bits of a word: as many rows stand in a plain word, and in a segment of a body in EWAH.
pub const WORD_BITS: usize = 32;

/// The rows of a segment of a body in WAH.
pub const WAH_SEGMENT_ROWS: usize = 31;

/// The highest bit of a word of a body in WAH: set in a fill, clear in a literal.
pub const WAH_FILL_SHIFT: u32 = 31;

/// The bit of a fill that is its segments' value. The bits below it are their number.
pub const WAH_VALUE_SHIFT: u32 = 30;

/// The most segments that one fill can count.
pub const WAH_MOST_FILL: usize = 1_073_741_823;

/// The plain words of that many rows, whatever the format, which are also its segments in EWAH.
///
/// ```
/// assert_eq!(zvonurel::segments(0), 0);
/// assert_eq!(zvonurel::segments(40), 2);
/// ```
#[must_use]
pub const fn segments(rows: u32) -> usize {
    Format::Ewah.segments(rows)
}

/// Room for every body of that many rows that the library writes in EWAH: none in canonical form has more words. In
/// WAH it is [`Format::most_body_words`] that says so.
///
/// ```
/// assert_eq!(zvonurel::most_body_words(40), 3);
/// let mut body = [0; zvonurel::most_body_words(40)];
/// assert_eq!(zvonurel::compress(40, &[0x1, 0x80], &mut body), Ok(3));
/// ```
#[must_use]
pub const fn most_body_words(rows: u32) -> usize {
    Format::Ewah.most_body_words(rows)
}

/// Room for every sum of two columns of that many rows of an index in EWAH, of which the wider has at most that many
/// slices: [`sum`] is refused such a buffer only where the sum is longer than [`MOST_INDEX_WORDS`], and then it is
/// refused any. In WAH it is [`Format::most_sum_words`] that says so.
///
/// A list of n numbers names n - 1 slices. The sum is an index of the existence bitmap and one slice more. So much
/// room is enough for all that is made of two columns: [`signed_difference`] writes as many slices, and [`smaller`] and
/// [`difference_or_zero`] one fewer.
///
/// [`sum`]: crate::sum
/// [`signed_difference`]: crate::signed_difference
/// [`smaller`]: crate::smaller
/// [`difference_or_zero`]: crate::difference_or_zero
///
/// ```
/// assert_eq!(zvonurel::most_sum_words(8, 2), 19);
/// assert_eq!(zvonurel::most_sum_words(zvonurel::MOST_ROWS, 32), zvonurel::MOST_INDEX_WORDS);
/// ```
#[must_use]
pub const fn most_sum_words(rows: u32, slices: usize) -> usize {
    Format::Ewah.most_sum_words(rows, slices)
}

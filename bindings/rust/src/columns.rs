//! Columns of an index, each named by a list: the existence bitmap, then the slices, the lowest first.

use crate::{argument, raw, settled, words, Refusal};

/// The value of a row of a column: what the slices that have the row weigh, slice i 2^i.
///
/// # Errors
/// 1 to 7, or 10, for the index's first fault; 8 for a list of fewer than [`LEAST_COLUMN`] numbers, more than
/// [`MOST_VALUE_COLUMN`] or one that is no bitmap's, or where there is no such row or it does not exist; 11 where a
/// slice has a row that does not exist.
///
/// [`LEAST_COLUMN`]: crate::LEAST_COLUMN
/// [`MOST_VALUE_COLUMN`]: crate::MOST_VALUE_COLUMN
///
/// ```
/// // of eight rows 0 to 3 exist, and have the values 1, 2, 3 and 0
/// let index = [1, 8, 3, 9, 2, 11, 2, 13, 2, 0x20000, 0b1111, 0x20000, 0b0101, 0x20000, 0b0110];
/// assert_eq!(zvonurel::value(&index, &[0, 1, 2], 2), Ok(3));
/// let refusal = zvonurel::value(&index, &[0, 1, 2], 4).unwrap_err();
/// assert_eq!(refusal.to_string(), "a bad argument: row 4 does not exist in the column (refusal 8)");
/// // where bitmap 1 says which rows exist, row 1 does not, and bitmap 0 has it
/// let refusal = zvonurel::value(&index, &[1, 0], 2).unwrap_err();
/// assert_eq!(refusal.to_string(), "bitmap 0: this slice has row 1, which is not in the existence bitmap (refusal 11)");
/// ```
pub fn value(index: &[u32], column: &[u32], row: u32) -> Result<u64, Refusal> {
    // SAFETY: each pointer is a slice's, with its length.
    let told = unsafe { raw::zv_value(index.as_ptr(), index.len(), column.as_ptr(), column.len(), row) };
    settled(told.number, told.bitmap, told.word, told.value, || argument::value(index, column, row))
}

/// The value of a row of a signed column, such as [`signed_difference`] writes: what the slices that have the row
/// weigh, the highest of n slices -2^(n-1), and below it slice i 2^i.
///
/// A list of two numbers names one slice, so that its values are 0 and -1. With the most, 33 slices, they are from
/// -4,294,967,296 to 4,294,967,295.
///
/// # Errors
/// Those of [`value`].
///
/// ```
/// // of eight rows 0 to 3 exist; bitmap 1 has rows 0 and 2, and bitmap 2, the sign, rows 1 and 2
/// let index = [1, 8, 3, 9, 2, 11, 2, 13, 2, 0x20000, 0b1111, 0x20000, 0b0101, 0x20000, 0b0110];
/// assert_eq!([0, 1, 2, 3].map(|row| zvonurel::signed_value(&index, &[0, 1, 2], row)), [Ok(1), Ok(-2), Ok(-1), Ok(0)]);
/// assert_eq!(zvonurel::signed_value(&index, &[0, 1, 2], 4).unwrap_err().number, 8);
/// ```
pub fn signed_value(index: &[u32], column: &[u32], row: u32) -> Result<i64, Refusal> {
    // SAFETY: each pointer is a slice's, with its length.
    let told = unsafe { raw::zv_signed_value(index.as_ptr(), index.len(), column.as_ptr(), column.len(), row) };
    settled(told.number, told.bitmap, told.word, told.value, || argument::value(index, column, row))
}

/// What is made of two columns.
#[derive(Clone, Copy)]
enum Pairing {
    Sum,
    SignedDifference,
    Smaller,
    DifferenceOrZero,
}

fn of_two_columns(
    pairing: Pairing,
    index: &[u32],
    first: &[u32],
    second: &[u32],
    out: &mut [u32],
) -> Result<usize, Refusal> {
    let call = match pairing {
        Pairing::Sum => raw::zv_sum,
        Pairing::SignedDifference => raw::zv_signed_difference,
        Pairing::Smaller => raw::zv_smaller,
        Pairing::DifferenceOrZero => raw::zv_difference_or_zero,
    };
    // SAFETY: each pointer is a slice's, with its length.
    let told = unsafe {
        call(
            index.as_ptr(),
            index.len(),
            first.as_ptr(),
            first.len(),
            second.as_ptr(),
            second.len(),
            out.as_mut_ptr(),
            out.len(),
        )
    };
    settled(told.number, told.bitmap, told.word, words(told.words), || argument::two_columns(index, first, second))
}

/// Writes the sum of two columns, row by row, as a new index in the same format, and returns how many words. A row
/// exists in the sum if it does in both columns. Bitmap 0 of the new index is existence; the others are the slices,
/// one more than the wider column has, empty ones included, each in the one form with the fewest words. Their numbers,
/// from 0 on, name the sum.
///
/// # Errors
/// 1 to 7, or 10, for the index's first fault; 8 for a list of fewer than [`LEAST_COLUMN`] numbers, more than
/// [`MOST_COLUMN`] or one that is no bitmap's; 11 where a slice has a row that does not exist in its column; 9 for a
/// short buffer, or a new index of more than [`MOST_INDEX_WORDS`] words.
///
/// [`LEAST_COLUMN`]: crate::LEAST_COLUMN
/// [`MOST_COLUMN`]: crate::MOST_COLUMN
/// [`MOST_INDEX_WORDS`]: crate::MOST_INDEX_WORDS
///
/// ```
/// // rows 0 to 3 have the values 1, 2, 3 and 0, and then rows 1 to 4 the values 1, 1, 0 and 1
/// let mut builder = zvonurel::IndexBuilder::new(5);
/// let first = builder.add_column(&[Some(1), Some(2), Some(3), Some(0), None], 2)?;
/// let second = builder.add_column(&[None, Some(1), Some(1), Some(0), Some(1)], 1)?;
/// let index = builder.build()?;
///
/// let mut out = [0; zvonurel::most_sum_words(5, 2)];
/// let words = zvonurel::sum(&index, &first, &second, &mut out)?;
/// let (sum, column) = (&out[..words], [0, 1, 2, 3]);
/// assert_eq!(zvonurel::value(sum, &column, 1), Ok(3));
/// assert_eq!(zvonurel::value(sum, &column, 2), Ok(4));
/// assert_eq!(zvonurel::value(sum, &column, 3), Ok(0));
/// // row 0 exists in the first alone
/// assert_eq!(zvonurel::value(sum, &column, 0).unwrap_err().number, 8);
/// # Ok::<(), zvonurel::Refusal>(())
/// ```
pub fn sum(index: &[u32], first: &[u32], second: &[u32], out: &mut [u32]) -> Result<usize, Refusal> {
    of_two_columns(Pairing::Sum, index, first, second, out)
}

/// Writes the first column less the second, row by row, as a signed column, and returns how many words. It is a new
/// index as [`sum`] writes one, with as many slices: one more than the wider column has, so that every difference has
/// room, from -4,294,967,295 to 4,294,967,295. [`signed_value`] reads it. Both columns are taken as unsigned.
///
/// # Errors
/// Those of [`sum`].
///
/// ```
/// // what a tank had in three half hours, and in the half hour before each
/// let mut builder = zvonurel::IndexBuilder::new(3);
/// let now = builder.add_column(&[Some(21), Some(25), Some(19)], 5)?;
/// let before = builder.add_column(&[None, Some(21), Some(25)], 5)?;
/// let index = builder.build()?;
///
/// let mut out = [0; zvonurel::most_sum_words(3, 5)];
/// let words = zvonurel::signed_difference(&index, &now, &before, &mut out)?;
/// let (change, column) = (&out[..words], [0, 1, 2, 3, 4, 5, 6]);
/// assert_eq!(zvonurel::signed_value(change, &column, 1), Ok(4));
/// assert_eq!(zvonurel::signed_value(change, &column, 2), Ok(-6));
/// assert_eq!(zvonurel::signed_value(change, &column, 0).unwrap_err().number, 8);
/// # Ok::<(), zvonurel::Refusal>(())
/// ```
pub fn signed_difference(index: &[u32], first: &[u32], second: &[u32], out: &mut [u32]) -> Result<usize, Refusal> {
    of_two_columns(Pairing::SignedDifference, index, first, second, out)
}

/// Writes the smaller value of two columns, row by row, and returns how many words. It is a new index as [`sum`] writes
/// one, but with just as many slices as the wider column has.
///
/// # Errors
/// Those of [`sum`].
///
/// ```
/// let mut builder = zvonurel::IndexBuilder::new(3);
/// let north = builder.add_column(&[Some(21), Some(25), Some(40)], 6)?;
/// let south = builder.add_column(&[Some(30), None, Some(33)], 6)?;
/// let index = builder.build()?;
///
/// let mut out = [0; zvonurel::most_sum_words(3, 6)];
/// let words = zvonurel::smaller(&index, &north, &south, &mut out)?;
/// let column = [0, 1, 2, 3, 4, 5, 6];
/// assert_eq!([0, 2].map(|row| zvonurel::value(&out[..words], &column, row)), [Ok(21), Ok(33)]);
/// # Ok::<(), zvonurel::Refusal>(())
/// ```
pub fn smaller(index: &[u32], first: &[u32], second: &[u32], out: &mut [u32]) -> Result<usize, Refusal> {
    of_two_columns(Pairing::Smaller, index, first, second, out)
}

/// Writes the first column less the second, row by row, and 0 where the second has the greater value, and returns how
/// many words. It is a new index as [`sum`] writes one, but with just as many slices as the wider column has, and is
/// read by [`value`].
///
/// # Errors
/// Those of [`sum`].
///
/// ```
/// let mut builder = zvonurel::IndexBuilder::new(3);
/// let north = builder.add_column(&[Some(21), Some(25), Some(40)], 6)?;
/// let south = builder.add_column(&[Some(30), None, Some(33)], 6)?;
/// let index = builder.build()?;
///
/// let mut out = [0; zvonurel::most_sum_words(3, 6)];
/// let words = zvonurel::difference_or_zero(&index, &north, &south, &mut out)?;
/// let column = [0, 1, 2, 3, 4, 5, 6];
/// assert_eq!([0, 2].map(|row| zvonurel::value(&out[..words], &column, row)), [Ok(0), Ok(7)]);
/// # Ok::<(), zvonurel::Refusal>(())
/// ```
pub fn difference_or_zero(index: &[u32], first: &[u32], second: &[u32], out: &mut [u32]) -> Result<usize, Refusal> {
    of_two_columns(Pairing::DifferenceOrZero, index, first, second, out)
}

/// Which rows of a column come first.
#[derive(Clone, Copy)]
enum Ranking {
    Largest,
    Smallest,
}

fn first_rows(ranking: Ranking, index: &[u32], column: &[u32], k: u32, out: &mut [u32]) -> Result<usize, Refusal> {
    let call = match ranking {
        Ranking::Largest => raw::zv_largest,
        Ranking::Smallest => raw::zv_smallest,
    };
    // SAFETY: each pointer is a slice's, with its length.
    let told =
        unsafe { call(index.as_ptr(), index.len(), column.as_ptr(), column.len(), k, out.as_mut_ptr(), out.len()) };
    settled(told.number, told.bitmap, told.word, words(told.words), || argument::first_rows(index, column, k))
}

/// Writes the k rows of a column that have the largest values, as a body in the index's format, in the one form with
/// the fewest words, and returns how many words. The body has exactly k rows, which all exist: no other row that exists
/// has a larger value than one of them. Of the rows that share the least value taken, the lowest are taken. A k of 0
/// gives no rows. The column is taken as unsigned.
///
/// Twice the words of the named bodies, each counted as often as it is named, is always room enough. [`set_rows`], or
/// in WAH [`wah::set_rows`], lists the rows, from the lowest on and not by their values.
///
/// # Errors
/// 1 to 7, or 10, for the index's first fault; 8 for a list of fewer than [`LEAST_COLUMN`] numbers, more than
/// [`MOST_COLUMN`] or one that is no bitmap's, or where fewer than k rows exist; 11 where a slice has a row that does
/// not exist; 9 for a short buffer.
///
/// [`set_rows`]: crate::set_rows
/// [`wah::set_rows`]: crate::wah::set_rows
/// [`LEAST_COLUMN`]: crate::LEAST_COLUMN
/// [`MOST_COLUMN`]: crate::MOST_COLUMN
///
/// ```
/// // what a tank had in six half hours, of which one was not read
/// let mut builder = zvonurel::IndexBuilder::new(6);
/// let ammonia = builder.add_column(&[Some(21), Some(40), None, Some(33), Some(40), Some(33)], 6)?;
/// let index = builder.build()?;
///
/// // the three worst: those with 40, and the first of the two with 33
/// let mut out = [0; zvonurel::most_body_words(6)];
/// let words = zvonurel::largest(&index, &ammonia, 3, &mut out)?;
/// let worst: Vec<u32> = zvonurel::set_rows(&out[..words], 6)?.collect();
/// assert_eq!(worst, [1, 3, 4]);
///
/// let refusal = zvonurel::largest(&index, &ammonia, 6, &mut out).unwrap_err();
/// assert_eq!(refusal.to_string(), "a bad argument: 6 rows were asked for, and 5 exist in the column (refusal 8)");
/// # Ok::<(), zvonurel::Refusal>(())
/// ```
pub fn largest(index: &[u32], column: &[u32], k: u32, out: &mut [u32]) -> Result<usize, Refusal> {
    first_rows(Ranking::Largest, index, column, k, out)
}

/// Writes the k rows of a column that have the smallest values, as a body, and returns how many words. It is as
/// [`largest`] has it, but that no other row that exists has a smaller value than one of them; of the rows that share
/// the greatest value taken, the lowest are taken.
///
/// # Errors
/// Those of [`largest`].
///
/// ```
/// let mut builder = zvonurel::IndexBuilder::new(6);
/// let ammonia = builder.add_column(&[Some(21), Some(40), None, Some(33), Some(40), Some(33)], 6)?;
/// let index = builder.build()?;
///
/// let mut out = [0; zvonurel::most_body_words(6)];
/// let words = zvonurel::smallest(&index, &ammonia, 2, &mut out)?;
/// let best: Vec<u32> = zvonurel::set_rows(&out[..words], 6)?.collect();
/// assert_eq!(best, [0, 3]);
/// # Ok::<(), zvonurel::Refusal>(())
/// ```
pub fn smallest(index: &[u32], column: &[u32], k: u32, out: &mut [u32]) -> Result<usize, Refusal> {
    first_rows(Ranking::Smallest, index, column, k, out)
}

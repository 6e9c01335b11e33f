//! The plain programs beside the questions on columns.

use std::cmp::Ordering;

use zvonurel::WORD_BITS;

use crate::column_inputs::Columns;

/// The slices of each column that is measured, and of what has one more.
pub const SLICES: usize = 16;
const DIGITS: usize = SLICES + 1;

/// What is made of two columns.
#[derive(Debug, Clone, Copy, PartialEq, Eq)]
pub enum Pairing {
    Sum,
    SignedDifference,
    Smaller,
    DifferenceOrZero,
}

/// Writes the plain words of the slices, one slice behind the other. Rows that do not exist are worked on as well.
pub type Makes = fn(&Columns, &mut [u32]);

impl Pairing {
    /// The slices that it has.
    pub fn slices(self) -> usize {
        match self {
            Pairing::Sum | Pairing::SignedDifference => DIGITS,
            Pairing::Smaller | Pairing::DifferenceOrZero => SLICES,
        }
    }

    /// The programs, with their names.
    pub fn programs(self) -> Vec<(&'static str, Makes)> {
        match self {
            Pairing::Sum => {
                let mut programs = from_arrays::<Add, DIGITS>();
                programs.extend([("transposed", transposed as Makes), ("bit-sliced", bit_sliced)]);
                programs
            }
            Pairing::SignedDifference => from_arrays::<Subtract, DIGITS>(),
            Pairing::Smaller => from_arrays::<Least, SLICES>(),
            Pairing::DifferenceOrZero => from_arrays::<SubtractOrZero, SLICES>(),
        }
    }
}

/// What is made of two values; as many digits of it are kept as there are slices. A type of its own for each, so that a
/// program is compiled for it.
trait Operation {
    fn of(x: u32, y: u32) -> u32;
}

struct Add;
struct Subtract;
struct Least;
struct SubtractOrZero;

impl Operation for Add {
    fn of(x: u32, y: u32) -> u32 {
        x + y
    }
}

impl Operation for Subtract {
    fn of(x: u32, y: u32) -> u32 {
        x.wrapping_sub(y)
    }
}

impl Operation for Least {
    fn of(x: u32, y: u32) -> u32 {
        x.min(y)
    }
}

impl Operation for SubtractOrZero {
    fn of(x: u32, y: u32) -> u32 {
        x.saturating_sub(y)
    }
}

/// The programs that there are for any operation.
fn from_arrays<O: Operation, const N: usize>() -> Vec<(&'static str, Makes)> {
    vec![("bit by bit", bit_by_bit::<O>), ("row by row", row_by_row::<O, N>)]
}

/// The digits of one segment go to their slices, each of so many segments. Inlined, since a call costs the programs time.
#[inline(always)]
fn store<const N: usize>(out: &mut [u32], segments: usize, at: usize, digits: [u32; N]) {
    for (i, word) in digits.into_iter().enumerate() {
        out[i * segments + at] = word;
    }
}

/// The straightforward program: two arrays of values, row by row, each digit's bit set in its plain word where it lies.
fn bit_by_bit<O: Operation>(data: &Columns, out: &mut [u32]) {
    let segments = data.segments();
    let [first, second] = &data.values;
    out.fill(0);
    for (row, (x, y)) in first.iter().zip(second).enumerate() {
        let number = O::of(*x, *y);
        for (i, slice) in out.chunks_exact_mut(segments).enumerate() {
            slice[row / WORD_BITS] |= (number >> i & 1) << (row % WORD_BITS);
        }
    }
}

/// The same with the words of a segment kept at hand until it is whole, so that `out` need not be cleared.
fn row_by_row<O: Operation, const N: usize>(data: &Columns, out: &mut [u32]) {
    let segments = data.segments();
    let [first, second] = data.values.each_ref().map(|values| values.chunks(WORD_BITS));
    for (at, (first, second)) in first.zip(second).enumerate() {
        let mut digits = [0; N];
        let mut bit = 1;
        for (x, y) in first.iter().zip(second) {
            let number = O::of(*x, *y);
            for (i, word) in digits.iter_mut().enumerate() {
                *word |= if number & (1 << i) != 0 { bit } else { 0 };
            }
            bit <<= 1;
        }
        store(out, segments, at, digits);
    }
}

// Each word of the square below has two rows.
const _: () = assert!(2 * SLICES == WORD_BITS);

/// The same arrays, 32 rows at once, transposed.
fn transposed(data: &Columns, out: &mut [u32]) {
    let segments = data.segments();
    let [first, second] = data.values.each_ref().map(|values| values.as_chunks());
    for (at, (first, second)) in first.0.iter().zip(second.0).enumerate() {
        store(out, segments, at, transpose(first, second));
    }
    if !first.1.is_empty() {
        store(out, segments, segments - 1, transpose(&padded(first.1), &padded(second.1)));
    }
}

/// The last rows, and zeros.
fn padded(values: &[u32]) -> [u32; WORD_BITS] {
    std::array::from_fn(|k| values.get(k).copied().unwrap_or(0))
}

/// The digits of a segment's sums. The low ones are two squares of bits side by side, in which rows and columns change
/// places; the highest is by itself.
#[inline(always)]
fn transpose(first: &[u32; WORD_BITS], second: &[u32; WORD_BITS]) -> [u32; DIGITS] {
    let sums: [u32; WORD_BITS] = std::array::from_fn(|k| first[k] + second[k]);
    let mut square: [u32; SLICES] = std::array::from_fn(|k| (sums[k] & 0xFFFF) | sums[k + SLICES] << SLICES);
    swap::<8>(&mut square, 0x00FF_00FF);
    swap::<4>(&mut square, 0x0F0F_0F0F);
    swap::<2>(&mut square, 0x3333_3333);
    swap::<1>(&mut square, 0x5555_5555);
    let mut digits = [0; DIGITS];
    digits[..SLICES].copy_from_slice(&square);
    for (bit, sum) in sums.into_iter().enumerate() {
        digits[SLICES] |= if sum & (1 << SLICES) != 0 { 1 << bit } else { 0 };
    }
    digits
}

/// Of each two words `J` apart, the high groups of `J` bits of the one go where the low ones of the other are.
fn swap<const J: usize>(words: &mut [u32; SLICES], low: u32) {
    for base in (0..SLICES).step_by(2 * J) {
        for k in base..base + J {
            let both = (words[k] >> J ^ words[k + J]) & low;
            words[k + J] ^= both;
            words[k] ^= both << J;
        }
    }
}

/// Segments worked on at once.
const LANES: usize = 16;

/// A full adder over the plain words of the slices: for a program that keeps columns as they are kept here, uncompressed.
fn bit_sliced(data: &Columns, out: &mut [u32]) {
    let segments = data.segments();
    for at in (0..segments).step_by(LANES) {
        let block = at..segments.min(at + LANES);
        let mut carries = [0; LANES];
        for i in 0..SLICES {
            let words = data.plain(0, i + 1)[block.clone()].iter().zip(&data.plain(1, i + 1)[block.clone()]);
            let sums = out[i * segments..][block.clone()].iter_mut().zip(&mut carries);
            for ((sum, carry), (x, y)) in sums.zip(words) {
                let odd = x ^ y;
                *sum = odd ^ *carry;
                *carry = (x & y) | (odd & *carry);
            }
        }
        out[SLICES * segments..][block.clone()].copy_from_slice(&carries[..block.len()]);
    }
}

/// Which rows of a column come first: those of the largest values, or of the smallest; of equal ones the lowest.
#[derive(Debug, Clone, Copy, PartialEq, Eq)]
pub enum Ranking {
    Largest,
    Smallest,
}

/// A value and its row.
type Valued = (u32, u32);

impl Ranking {
    /// The plain program: the first k of the rows that exist in the first column, with their values, in no order.
    pub fn select(self, data: &Columns, k: usize, rows: &mut Vec<Valued>) {
        match self {
            Ranking::Largest => select(data, k, rows, |x, y| y.0.cmp(&x.0).then(x.1.cmp(&y.1))),
            Ranking::Smallest => select(data, k, rows, Valued::cmp),
        }
    }
}

/// Each existing row's value is put together bit by bit, of plain words, and then k are selected. The list is lent, so
/// that no time goes into its memory, and the order is a parameter of its own type, so that it is compiled in.
fn select(data: &Columns, k: usize, rows: &mut Vec<Valued>, order: impl FnMut(&Valued, &Valued) -> Ordering) {
    let existence = data.plain(0, 0);
    let slices: [&[u32]; SLICES] = std::array::from_fn(|i| data.plain(0, i + 1));
    let bit = |words: &[u32], row: u32| words[row as usize / WORD_BITS] >> (row as usize % WORD_BITS) & 1;
    let value = |row: u32| slices.iter().enumerate().fold(0, |value, (i, slice)| value | bit(slice, row) << i);
    rows.clear();
    rows.extend((0..data.rows).filter(|row| bit(existence, *row) == 1).map(|row| (value(row), row)));
    if k < rows.len() {
        rows.select_nth_unstable_by(k, order);
    }
    rows.truncate(k);
}

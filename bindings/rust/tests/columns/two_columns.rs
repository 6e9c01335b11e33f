//! Two columns of eight rows, and the calls that make a column of two.

use zvonurel::*;

/// Eight rows. In the column of bitmaps 0, 1 and 2 rows 0 to 3 exist and have the values 1, 2, 3 and 0; in that of 3 and
/// 4 rows 1 to 4 exist and have 1, 1, 0 and 1. Bitmap 5 has rows 0 and 5.
pub const EIGHT: [u32; 27] = [
    1, 8, 6, 15, 2, 17, 2, 19, 2, 21, 2, 23, 2, 25, 2, 0x20000, 0x0F, 0x20000, 0x05, 0x20000, 0x06, 0x20000, 0x1E,
    0x20000, 0x16, 0x20000, 0x21,
];
pub const LOW: [u32; 3] = [0, 1, 2];
pub const HIGH: [u32; 2] = [3, 4];

/// A call that makes a column of two, and one that reads a value.
type Makes = fn(&[u32], &[u32], &[u32], &mut [u32]) -> Result<usize, Refusal>;
type Reads = fn(&[u32], &[u32], u32) -> Result<i64, Refusal>;

/// What is made of two columns.
#[derive(Clone, Copy)]
pub struct Made {
    pub call: Makes,
    /// Its value where the columns have these.
    pub of: fn(i64, i64) -> i64,
    /// How many slices more than the wider column it has.
    pub more: usize,
    /// The call that reads its values.
    pub read: Reads,
}

pub const MADE: [Made; 4] = [
    Made { call: sum, of: |x, y| x + y, more: 1, read: unsigned },
    Made { call: signed_difference, of: |x, y| x - y, more: 1, read: signed_value },
    Made { call: smaller, of: |x, y| x.min(y), more: 0, read: unsigned },
    Made { call: difference_or_zero, of: |x, y| (x - y).max(0), more: 0, read: unsigned },
];

fn unsigned(index: &[u32], column: &[u32], row: u32) -> Result<i64, Refusal> {
    value(index, column, row).map(|value| i64::try_from(value).unwrap())
}

/// The list that names all of an index as one column.
pub fn whole(index: &[u32]) -> Vec<u32> {
    (0..index[2]).collect()
}

//! Small columns, and what two of them are made into.

use super::{index_of, no};
use reference::{check, Refusal};

/// A call on two columns.
pub type Pairs = fn(&[u32], &[u32], &[u32], usize) -> Result<Vec<u32>, Refusal>;

/// What it writes into just the room that it needs; with one word less, or none, it is refused with that number.
pub fn written(call: Pairs, index: &[u32], first: &[u32], second: &[u32]) -> Vec<u32> {
    let words = call(index, first, second, usize::MAX).unwrap();
    let need = words.len();
    assert_eq!(call(index, first, second, need).as_ref(), Ok(&words));
    assert_eq!(call(index, first, second, need - 1), Err(no(9, 0, need as u64)));
    assert_eq!(call(index, first, second, 0), Err(no(9, 0, need as u64)));
    assert_eq!(check(&words), Ok(()));
    words
}

/// One segment with these rows set.
pub const fn one(rows: u32) -> [u32; 2] {
    [0x0002_0000, rows]
}

/// 4 rows. Bitmaps 0 to 2 have 1, 2, 3 at rows 0, 1, 2; bitmaps 3 and 4 have 1, 1, 0 at rows 1, 2, 3.
pub fn small() -> Vec<u32> {
    index_of(4, &[&one(0x7), &one(0x5), &one(0x6), &one(0xE), &one(0x6)])
}

/// 64 rows: none, all, the first segment, the second.
pub fn halves() -> Vec<u32> {
    index_of(64, &[&[4], &[5], &[3, 2], &[2, 3]])
}

/// 40 rows: 0 to 31; 32 to 39; row 39; rows 3 and 35; row 7; none.
pub fn strays() -> Vec<u32> {
    let bodies: [&[u32]; 6] =
        [&[3, 2], &[0x0002_0002, 0xFF], &[0x0002_0002, 0x80], &[0x0004_0000, 8, 8], &[0x0002_0000, 0x80, 2], &[4]];
    index_of(40, &bodies)
}

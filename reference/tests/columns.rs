//! Columns: values, sums and their refusals, worked out by hand.

mod common;
use common::columns::*;
use common::*;
use reference::limits::*;
use reference::*;

const ANY: usize = usize::MAX;
const BAD: Refusal = Refusal { number: 8, bitmap: 0, word: 0 };

fn sum_of(index: &[u32], first: &[u32], second: &[u32]) -> Vec<u32> {
    written(sum, index, first, second)
}

#[test]
fn values() {
    let index = small();
    assert_eq!([0, 1, 2].map(|r| value(&index, &[0, 1, 2], r)), [Ok(1), Ok(2), Ok(3)]);
    assert_eq!([1, 2, 3].map(|r| value(&index, &[3, 4], r)), [Ok(1), Ok(1), Ok(0)]);
    // Slices the other way round.
    assert_eq!([0, 1, 2].map(|r| value(&index, &[0, 2, 1], r)), [Ok(2), Ok(1), Ok(3)]);
}

#[test]
fn a_whole_sum() {
    // Row 1: 2 + 1 = 3. Row 2: 3 + 1 = 4, a carry into the top slice.
    let due = [1, 4, 4, 11, 2, 13, 2, 15, 2, 17, 2, 0x20000, 6, 0x20000, 2, 0x20000, 2, 0x20000, 4];
    let index = small();
    assert_eq!(sum_of(&index, &[0, 1, 2], &[3, 4]), due);
    assert_eq!(sum_of(&index, &[3, 4], &[0, 1, 2]), due);
    assert_eq!(value(&due, &[0, 1, 2, 3], 1), Ok(3));
    assert_eq!(value(&due, &[0, 1, 2, 3], 2), Ok(4));
    assert_eq!(value(&due, &[0, 1, 2, 3], 0), Err(BAD));
}

#[test]
fn no_rows() {
    for body in [&[][..], &[0], &[1, 0]] {
        let index = index_of(0, &[body]);
        assert_eq!(sum_of(&index, &[0, 0], &[0, 0]), [1, 0, 3, 9, 0, 9, 0, 9, 0]);
        assert_eq!(value(&index, &[0, 0], 0), Err(BAD));
    }
}

#[test]
fn no_bitmaps() {
    for rows in [0, 4] {
        let index = index_of(rows, &[]);
        assert_eq!(sum(&index, &[], &[], ANY), Err(BAD));
        assert_eq!(sum(&index, &[0, 0], &[0, 0], ANY), Err(BAD));
        assert_eq!(value(&index, &[0, 0], 0), Err(BAD));
    }
}

#[test]
fn existence() {
    let index = halves();
    let head = [1, 64, 3, 9, 1, 10, 1, 11, 1];
    // Nowhere in both, or in one.
    assert_eq!(sum_of(&index, &[0, 0], &[0, 0]), [&head[..], &[4, 4, 4]].concat());
    assert_eq!(sum_of(&index, &[0, 0], &[1, 1]), [&head[..], &[4, 4, 4]].concat());
    // Everywhere: 1 + 1 = 2; 0 + 1 = 1.
    assert_eq!(sum_of(&index, &[1, 1], &[1, 1]), [&head[..], &[5, 4, 5]].concat());
    assert_eq!(sum_of(&index, &[1, 0], &[1, 1]), [&head[..], &[5, 5, 4]].concat());
    // In no row together.
    assert_eq!(sum_of(&index, &[2, 2], &[3, 3]), [&head[..], &[4, 4, 4]].concat());
    // In the second segment together: 1 + 1 = 2.
    let due = [1, 64, 3, 9, 2, 11, 1, 12, 2, 2, 3, 4, 2, 3];
    assert_eq!(sum_of(&index, &[1, 1], &[3, 3]), due);
}

#[test]
fn pads_are_no_rows() {
    // All rows as a dirty word and as a run; all but row 39; row 39.
    let index = index_of(40, &[&[0x0002_0003, 0xFF], &[5], &[0x0002_0003, 0x7F], &[0x0002_0002, 0x80]]);
    for exists in [0, 1] {
        for slice in [0, 1] {
            let list = [exists, slice];
            assert_eq!([0, 39].map(|r| value(&index, &list, r)), [Ok(1); 2]);
            assert_eq!([40, 63].map(|r| value(&index, &list, r)), [Err(BAD); 2]);
            // 1 + 1 = 2 in all 40 rows.
            assert_eq!(sum_of(&index, &list, &[1, 0]), index_of(40, &[&[5], &[4], &[5]]));
            // 1 + 0 = 1 in row 39, else 1 + 1 = 2.
            assert_eq!(
                sum_of(&index, &list, &[exists, 2]),
                index_of(40, &[&[5], &[0x0002_0002, 0x80], &[0x0002_0003, 0x7F]])
            );
        }
        // Strays are rows.
        assert_eq!(value(&index, &[2, exists], 0), Err(no(11, exists, 39)));
        assert_eq!(value(&index, &[3, exists], 39), Err(no(11, exists, 0)));
    }
}

#[test]
fn twice_the_same() {
    // Doubling moves each slice up by one.
    let due = index_of(4, &[&one(0x7), &[2], &one(0x5), &one(0x6)]);
    assert_eq!(sum_of(&small(), &[0, 1, 2], &[0, 1, 2]), due);
}

#[test]
fn existence_as_slice() {
    let index = small();
    assert_eq!(value(&index, &[0, 0], 0), Ok(1));
    assert_eq!(value(&index, &[0, 0, 0], 2), Ok(3));
    assert_eq!(value(&index, &[0, 0, 1], 1), Ok(1));
    // 1 + 3 = 4.
    assert_eq!(sum_of(&index, &[0, 0], &[0, 0, 0]), index_of(4, &[&one(0x7), &[2], &[2], &one(0x7)]));
}

#[test]
fn widest() {
    let index = index_of(32, &[&[3]]);
    let widest = [0; MOST_SUMMED];
    assert_eq!(value(&index, &widest, 31), Ok(0xFFFF_FFFF));
    // Twice 2^32 - 1 is 2^33 - 2: all but the lowest slice.
    let mut bodies = vec![&[3][..]; 34];
    bodies[1] = &[2];
    let twice = sum_of(&index, &widest, &widest);
    assert_eq!(twice, index_of(32, &bodies));
    let all: Vec<u32> = (0..34).collect();
    assert_eq!(value(&twice, &all, 0), Ok(0x1_FFFF_FFFE));
    assert_eq!(value(&index, &[0; MOST_VALUED], 0), Ok(0x1_FFFF_FFFF));
    // One more makes 2^32: the top slice alone.
    let mut bodies = vec![&[2][..]; 34];
    bodies[0] = &[3];
    bodies[33] = &[3];
    assert_eq!(sum_of(&index, &widest, &[0, 0]), index_of(32, &bodies));
    assert_eq!(sum_of(&index, &[0, 0], &widest), index_of(32, &bodies));
}

#[test]
fn wasteful_bodies_settle() {
    let idle = [0, 0x0004_0001, 0x20, 0, 1, 0x0002_0000, 1, 0];
    for body in [&FIVE_64[..], &FIVE_64_WASTEFUL, &idle] {
        let index = index_of(96, &[body]);
        assert_eq!(sum_of(&index, &[0, 0], &[0, 0]), index_of(96, &[&FIVE_64, &[6], &FIVE_64]));
    }
}

#[test]
fn long_runs() {
    let index = index_of(2_097_152, &[&[0x0001_FFFE, 0x0000_0002], &[0x0001_FFFF, 0x0000_0003]]);
    let (none, all) = (&[0x0001_FFFE, 0x0000_0002][..], &[0x0001_FFFF, 0x0000_0003][..]);
    assert_eq!(sum_of(&index, &[1, 1], &[1, 0]), index_of(2_097_152, &[all, all, none]));
    assert_eq!(sum_of(&index, &[0, 0], &[1, 1]), index_of(2_097_152, &[none, none, none]));
    assert_eq!(value(&index, &[1, 0, 1], 2_097_151), Ok(2));
}

#[test]
fn eight_lists_and_rows() {
    let index = small();
    let good = [0, 1, 2];
    for wrong in [&[][..], &[0], &[0; 34], &[0; 35], &[0, 5], &[5, 0], &[0, u32::MAX]] {
        assert_eq!(sum(&index, wrong, &good, 0), Err(BAD));
        assert_eq!(sum(&index, &good, wrong, 0), Err(BAD));
        if wrong.len() != MOST_VALUED {
            assert_eq!(value(&index, wrong, 0), Err(BAD));
        }
    }
    assert_eq!(value(&index, &[0; MOST_VALUED], 0), Ok(0x1_FFFF_FFFF));
    assert_eq!(value(&index, &[0; MOST_VALUED + 1], 0), Err(BAD));
    // Row 3 doesn't exist; the others are past the end.
    for row in [3, 4, 31, 32, u32::MAX] {
        assert_eq!(value(&index, &good, row), Err(BAD));
    }
}

#[test]
fn eleven() {
    let index = strays();
    let no_value = |list: &[u32]| value(&index, list, 39).unwrap_err();
    // Only in the last segment, the one with pads.
    assert_eq!(value(&index, &[0, 2], 0), Err(no(11, 2, 39)));
    assert_eq!(value(&index, &[0, 5, 4, 3], 0), Err(no(11, 3, 35)));
    // The first in list order, though a later one has a lower row; then its lowest row.
    assert_eq!(no_value(&[1, 1, 3, 4]), no(11, 3, 3));
    assert_eq!(no_value(&[1, 4, 3, 0]), no(11, 4, 7));
    assert_eq!(no_value(&[1, 2, 0, 3]), no(11, 0, 0));
    assert_eq!(value(&index, &[0, 2, 3, 4], 0), Err(no(11, 2, 39)));
    assert_eq!(no_value(&[1, 4, 4]), no(11, 4, 7));
    // No row exists: only slices without rows will do.
    assert_eq!(sum(&index, &[5, 5, 4], &[5, 5], ANY), Err(no(11, 4, 7)));
    assert_eq!(sum_of(&index, &[5, 5], &[5, 5]), index_of(40, &[&[4], &[4], &[4]]));
}

#[test]
fn eleven_in_a_sum() {
    let index = strays();
    assert_eq!(sum(&index, &[0, 0, 2], &[1, 1], ANY), Err(no(11, 2, 39)));
    assert_eq!(sum(&index, &[1, 1], &[0, 0, 2], ANY), Err(no(11, 2, 39)));
    // The first column first, though the second's row is lower.
    assert_eq!(sum(&index, &[0, 2], &[1, 4], ANY), Err(no(11, 2, 39)));
    assert_eq!(sum(&index, &[1, 4], &[0, 2], ANY), Err(no(11, 4, 7)));
    // Each slice is held against its own column's existence.
    assert_eq!(sum(&index, &[1, 2], &[0, 2], ANY), Err(no(11, 2, 39)));
    assert_eq!(sum(&index, &[0, 4], &[1, 4], ANY), Err(no(11, 4, 7)));
    assert_eq!(sum_of(&index, &[0, 4], &[1, 2]), index_of(40, &[&[4], &[4], &[4]]));
}

#[test]
fn order_of_refusals() {
    let index = strays();
    // Index, then 8, then 11, then 9. Row 39 doesn't exist.
    for row in [39, 40, u32::MAX] {
        assert_eq!(value(&index, &[0, 2], row), Err(BAD));
    }
    assert_eq!(value(&index, &[0, 2, 6], 0), Err(BAD));
    assert_eq!(sum(&index, &[0, 2], &[0], 0), Err(BAD));
    assert_eq!(sum(&index, &[0, 2], &[0, 6], 0), Err(BAD));
    assert_eq!(sum(&index, &[6, 0], &[0, 2], 0), Err(BAD));
    let long = [&[0; 33][..], &[2]].concat();
    assert_eq!(sum(&index, &long, &[0, 2], 0), Err(BAD));
    assert_eq!(value(&index, &long, 0), Err(no(11, 2, 39)));
    assert_eq!(sum(&index, &[0, 0], &[0, 2], 0), Err(no(11, 2, 39)));

    let mut damaged = index;
    let last = damaged.len() - 1;
    damaged[last] = 7;
    let fault = no(6, 5, last as u64);
    assert_eq!(value(&damaged, &[0, 2], 0), Err(fault));
    assert_eq!(value(&damaged, &[], 40), Err(fault));
    assert_eq!(sum(&damaged, &[0, 2], &[0, 2], 0), Err(fault));
    assert_eq!(sum(&damaged, &[], &[], 0), Err(fault));
}

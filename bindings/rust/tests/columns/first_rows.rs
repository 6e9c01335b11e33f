//! Readings of the k rows of a column with the largest values, and with the smallest: words worked out by hand.

use crate::shared::{no_room, said, told, writes, BAD};
use crate::two_columns::{EIGHT, HIGH, LOW};
use zvonurel::*;

/// A call that writes the first rows of a column.
pub type FirstRows = fn(&[u32], &[u32], u32, &mut [u32]) -> Result<usize, Refusal>;

pub const FIRST_ROWS: [FirstRows; 2] = [largest, smallest];

/// Forty rows in EWAH: all, none, rows 32 to 39, and all again, the last eight in a dirty word.
fn forty() -> Vec<u32> {
    index_of(40, &[&[0x5][..], &[0x4], &[0x20002, 0xFF], &[0x20003, 0xFF]])
}

/// Rows 0 to 3 have 1, 2, 3 and 0, and others do not exist.
#[test]
fn by_value() {
    for call in FIRST_ROWS {
        writes(&[0x2], |out| call(&EIGHT, &LOW, 0, out));
    }
    for (k, (most, least)) in (1..).zip([(0x4, 0x8), (0x6, 0x9), (0x7, 0xB), (0xF, 0xF)]) {
        writes(&[0x20000, most], |out| largest(&EIGHT, &LOW, k, out));
        writes(&[0x20000, least], |out| smallest(&EIGHT, &LOW, k, out));
    }
    for call in FIRST_ROWS {
        assert_eq!(told(call(&EIGHT, &LOW, 4, &mut [])), no_room(2));
        for k in [5, 8, 9, u32::MAX] {
            assert_eq!(told(call(&EIGHT, &LOW, k, &mut [])), Err(BAD));
        }
    }
}

/// Rows 1 to 4 have 1, 1, 0 and 1: of equal ones the lowest come first, in either order.
#[test]
fn ties() {
    for (k, (most, least)) in (1..).zip([(0x2, 0x8), (0x6, 0xA), (0x16, 0xE), (0x1E, 0x1E)]) {
        writes(&[0x20000, most], |out| largest(&EIGHT, &HIGH, k, out));
        writes(&[0x20000, least], |out| smallest(&EIGHT, &HIGH, k, out));
    }
    // one value, cut at a segment's end and beside it; a run of ones goes over pad bits, however existence has them
    let index = forty();
    for (k, want) in [
        (0, &[0x4][..]),
        (1, &[0x20000, 0x1, 0x2]),
        (31, &[0x20000, 0x7FFF_FFFF, 0x2]),
        (32, &[0x3, 0x2]),
        (33, &[0x20003, 0x1]),
        (39, &[0x20003, 0x7F]),
        (40, &[0x5]),
    ] {
        for list in [[0, 0], [0, 1], [3, 0], [3, 1], [3, 3]] {
            for call in FIRST_ROWS {
                writes(want, |out| call(&index, &list, k, out));
                assert_eq!(
                    said(call(&index, &list, 41, &mut [])),
                    "41 rows were asked for, and 40 exist in the column"
                );
            }
        }
    }
}

/// Rows 32 to 39 have 1, and the others 0; and then those alone exist.
#[test]
fn pads() {
    let index = forty();
    for (k, most, least) in [
        (7, &[0x20002, 0x7F][..], &[0x20000, 0x7F, 0x2][..]),
        (8, &[0x2, 0x3], &[0x20000, 0xFF, 0x2]),
        (9, &[0x20000, 0x1, 0x3], &[0x20000, 0x1FF, 0x2]),
        (32, &[0x20000, 0xFF_FFFF, 0x3], &[0x3, 0x2]),
        (33, &[0x20000, 0x1FF_FFFF, 0x3], &[0x20003, 0x1]),
        (40, &[0x5], &[0x5]),
    ] {
        writes(most, |out| largest(&index, &[0, 2], k, out));
        writes(least, |out| smallest(&index, &[0, 2], k, out));
    }
    for call in FIRST_ROWS {
        writes(&[0x20002, 0x7F], |out| call(&index, &[2, 2], 7, out));
        writes(&[0x2, 0x3], |out| call(&index, &[2, 1], 8, out));
        assert_eq!(said(call(&index, &[2, 2], 9, &mut [])), "9 rows were asked for, and 8 exist in the column");
    }
}

/// 32 slices: the highest is no sign, and a bitmap weighs in each place that it is named in.
#[test]
fn unsigned_values() {
    let values = [0x8000_0000, 0x7FFF_FFFF, u32::MAX, 0, 0x8000_0001].map(Some);
    for format in [Format::Ewah, Format::Wah] {
        let mut builder = IndexBuilder::with_format(5, format);
        let column = builder.add_column(&values, 32).unwrap();
        let orders: [(FirstRows, [u32; 5]); 2] = [(largest, [2, 4, 0, 1, 3]), (smallest, [3, 1, 0, 4, 2])];
        for (k, (call, order)) in (0..=5).flat_map(|k| orders.map(|order| (k, order))) {
            let mut want = IndexBuilder::with_format(5, format);
            want.add_rows(order[..k].iter().copied()).unwrap();
            let (index, want) = (builder.build().unwrap(), want.build().unwrap());
            writes(bitmap(&want, 0).unwrap(), |out| call(&index, &column, k as u32, out));
        }
    }
    // 1, 2 and 3 in rows 0 to 2 are then 5, 2 and 7
    writes(&[0x20000, 0x5], |out| largest(&EIGHT, &[0, 1, 2, 1], 2, out));
    writes(&[0x20000, 0xA], |out| smallest(&EIGHT, &[0, 1, 2, 1], 2, out));
}

/// No row exists, and then there is none.
#[test]
fn no_rows() {
    let index = forty();
    for call in FIRST_ROWS {
        writes(&[0x4], |out| call(&index, &[1, 1], 0, out));
        assert_eq!(said(call(&index, &[1, 1], 1, &mut [])), "1 rows were asked for, and 0 exist in the column");
        for kind in [INDEX_KIND, WAH_INDEX_KIND] {
            writes(&[], |out| call(&[kind, 0, 1, 5, 0], &[0, 0], 0, out));
            assert_eq!(told(call(&[kind, 0, 1, 5, 0], &[0, 0], 1, &mut [])), Err(BAD));
        }
    }
}

/// Runs of more segments than a marker counts, and the most rows.
#[test]
fn long_runs() {
    let index = index_of(2_097_152, &[[0x1FFFF, 0x3], [0x1FFFE, 0x2]]);
    for (k, want) in [
        (2_097_119, &[0x3FFFD, 0x7FFF_FFFF, 0x2][..]),
        (2_097_120, &[0x1FFFF, 0x2]),
        (2_097_121, &[0x3FFFF, 0x1]),
        (2_097_152, &[0x1FFFF, 0x3]),
    ] {
        for call in FIRST_ROWS {
            writes(want, |out| call(&index, &[0, 1], k, out));
        }
    }
    // all rows of a run that one marker is too short for, and then one row more
    let index = index_of(2_097_216, &[&[0x1FFFF, 0x7][..], &[0x1FFFF, 0x3, 0x4]]);
    writes(&[0x1FFFF, 0x3, 0x4], |out| largest(&index, &[0, 1], 2_097_152, out));
    writes(&[0x1FFFF, 0x20003, 0x1, 0x2], |out| largest(&index, &[0, 1], 2_097_153, out));
    writes(&[0x1FFFE, 0x2, 0x5], |out| smallest(&index, &[0, 1], 64, out));
    writes(&[0x20000, 0x1, 0x1FFFE, 0x5], |out| smallest(&index, &[0, 1], 65, out));

    let all = [&[0x1FFFF; 512][..], &[0x401]].concat();
    let third = [&[0x1FFFF; 170][..], &[0x356A9, 0x1F_FFFF], &[0x1FFFE; 341], &[0xAD54]];
    let index = index_of(MOST_ROWS, &[&all]);
    for call in FIRST_ROWS {
        writes(&third.concat(), |out| call(&index, &[0, 0], 357_913_941, out));
        writes(&all, |out| call(&index, &[0, 0], MOST_ROWS, out));
        assert_eq!(told(call(&index, &[0, 0], MOST_ROWS + 1, &mut [])), Err(BAD));
    }
}

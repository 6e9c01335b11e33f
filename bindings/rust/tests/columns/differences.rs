//! Readings of the signed difference of two columns, the smaller value, the difference or zero, and signed values: words
//! worked out by hand, values around zero and at both ends.

use crate::shared::{no_room, told, writes, BAD, UNTOUCHED};
use crate::two_columns::{whole, Made, EIGHT, HIGH, LOW, MADE};
use zvonurel::*;

const FORMATS: [Format; 2] = [Format::Ewah, Format::Wah];

/// The top slice is the sign, however many there are.
#[test]
fn signed_values() {
    let values = |list: &[u32]| [0, 1, 2, 3].map(|row| signed_value(&EIGHT, list, row).unwrap());
    assert_eq!(values(&LOW), [1, -2, -1, 0]);
    assert_eq!(values(&[0, 2, 1]), [-2, 1, -1, 0]);
    // one slice: nothing but the sign
    assert_eq!(values(&[0, 1]), [-1, 0, -1, 0]);
    assert_eq!(values(&[0; LEAST_COLUMN]), [-1; 4]);
    // 33 slices: all set; all but the sign; the sign alone
    assert_eq!(values(&[0; MOST_VALUE_COLUMN]), [-1; 4]);
    let mut list = [0; MOST_VALUE_COLUMN];
    list[MOST_VALUE_COLUMN - 1] = 1;
    assert_eq!(values(&list), [-1, 4_294_967_295, -1, 4_294_967_295]);
    let mut list = [1; MOST_VALUE_COLUMN];
    (list[0], list[MOST_VALUE_COLUMN - 1]) = (0, 0);
    assert_eq!(values(&list), [-1, -4_294_967_296, -1, -4_294_967_296]);

    for row in [4, 7, 8, u32::MAX] {
        assert_eq!(told(signed_value(&EIGHT, &LOW, row)), Err(BAD));
    }
    assert_eq!(told(signed_value(&EIGHT, &[0; LEAST_COLUMN - 1], 0)), Err(BAD));
    assert_eq!(told(signed_value(&EIGHT, &[0; MOST_VALUE_COLUMN + 1], 0)), Err(BAD));
}

/// Rows 1 to 3 exist in both: 2 and 1, 3 and 1, 0 and 0.
#[test]
fn signed_differences() {
    let want = [1, 8, 4, 11, 2, 13, 2, 15, 2, 17, 1, 0x20000, 0xE, 0x20000, 0x2, 0x20000, 0x4, 0x2];
    writes(&want, |out| signed_difference(&EIGHT, &LOW, &HIGH, out));
    assert_eq!([1, 2, 3].map(|row| signed_value(&want, &[0, 1, 2, 3], row)), [Ok(1), Ok(2), Ok(0)]);
    let want = [1, 8, 4, 11, 2, 13, 2, 15, 2, 17, 2, 0x20000, 0xE, 0x20000, 0x2, 0x20000, 0x6, 0x20000, 0x6];
    writes(&want, |out| signed_difference(&EIGHT, &HIGH, &LOW, out));
    assert_eq!([1, 2, 3].map(|row| signed_value(&want, &[0, 1, 2, 3], row)), [Ok(-1), Ok(-2), Ok(0)]);
    assert_eq!([0, 4].map(|row| told(signed_value(&want, &[0, 1, 2, 3], row))), [Err(BAD); 2]);
    // without a difference three slices are empty, and are there
    let none = [1, 8, 4, 11, 2, 13, 1, 14, 1, 15, 1, 0x20000, 0xF, 0x2, 0x2, 0x2];
    writes(&none, |out| signed_difference(&EIGHT, &LOW, &LOW, out));
    assert_eq!(told(signed_difference(&EIGHT, &HIGH, &LOW, &mut [])), no_room(19));
}

#[test]
fn smaller_values() {
    let want = [1, 8, 3, 9, 2, 11, 2, 13, 1, 0x20000, 0xE, 0x20000, 0x6, 0x2];
    writes(&want, |out| smaller(&EIGHT, &LOW, &HIGH, out));
    writes(&want, |out| smaller(&EIGHT, &HIGH, &LOW, out));
    assert_eq!([1, 2, 3].map(|row| value(&want, &LOW, row)), [Ok(1), Ok(1), Ok(0)]);
    // of a column and itself it is the column
    let same = [1, 8, 3, 9, 2, 11, 2, 13, 2, 0x20000, 0xF, 0x20000, 0x5, 0x20000, 0x6];
    writes(&same, |out| smaller(&EIGHT, &LOW, &LOW, out));
    assert_eq!(told(smaller(&EIGHT, &LOW, &HIGH, &mut [])), no_room(14));
}

#[test]
fn differences_or_zero() {
    let want = [1, 8, 3, 9, 2, 11, 2, 13, 2, 0x20000, 0xE, 0x20000, 0x2, 0x20000, 0x4];
    writes(&want, |out| difference_or_zero(&EIGHT, &LOW, &HIGH, out));
    assert_eq!([1, 2, 3].map(|row| value(&want, &LOW, row)), [Ok(1), Ok(2), Ok(0)]);
    // nowhere is the second column the greater
    writes(&[1, 8, 3, 9, 2, 11, 1, 12, 1, 0x20000, 0xE, 0x2, 0x2], |out| difference_or_zero(&EIGHT, &HIGH, &LOW, out));
    writes(&[1, 8, 3, 9, 2, 11, 1, 12, 1, 0x20000, 0xF, 0x2, 0x2], |out| difference_or_zero(&EIGHT, &LOW, &LOW, out));
    assert_eq!(told(difference_or_zero(&EIGHT, &LOW, &HIGH, &mut [])), no_room(15));
}

/// No rows: bitmaps without a word.
#[test]
fn no_rows() {
    for format in FORMATS {
        let kind = format.index_kind();
        let index = [kind, 0, 1, 5, 0];
        writes(&[kind, 0, 3, 9, 0, 9, 0, 9, 0], |out| signed_difference(&index, &[0, 0], &[0, 0], out));
        for call in [smaller, difference_or_zero] {
            writes(&[kind, 0, 2, 7, 0, 7, 0], |out| call(&index, &[0, 0], &[0, 0], out));
        }
        assert_eq!(told(signed_value(&index, &[0, 0], 0)), Err(BAD));
    }
}

/// A row for each pair of values, of columns of so many slices, and what is made of it: the difference, the smaller and
/// the difference or zero.
type Reading = (Option<u32>, Option<u32>, Option<[i64; 3]>);

fn read_back(slices: [usize; 2], readings: &[Reading]) {
    for format in FORMATS {
        let mut builder = IndexBuilder::with_format(readings.len() as u32, format);
        let first: Vec<_> = readings.iter().map(|reading| reading.0).collect();
        let second: Vec<_> = readings.iter().map(|reading| reading.1).collect();
        let first = builder.add_column(&first, slices[0]).unwrap();
        let second = builder.add_column(&second, slices[1]).unwrap();
        let index = builder.build().unwrap();
        let mut out = vec![UNTOUCHED; format.most_sum_words(index[1], slices[0].max(slices[1]))];
        for (Made { call, more, read, .. }, at) in MADE[1..].iter().zip(0..) {
            let words = call(&index, &first, &second, &mut out).unwrap();
            let made = &out[..words];
            assert_eq!(made[2] as usize, 1 + slices[0].max(slices[1]) + more);
            for (row, reading) in (0..).zip(readings) {
                let want = reading.2.map(|values| values[at]).ok_or(BAD);
                assert_eq!(told(read(made, &whole(made), row)), want, "{reading:?}, {slices:?} slices, {format:?}");
            }
        }
    }
}

#[test]
fn around_zero_and_at_the_ends() {
    const MOST: u32 = u32::MAX;
    const END: i64 = 4_294_967_295;
    read_back(
        [32, 32],
        &[
            (Some(0), Some(0), Some([0, 0, 0])),
            (Some(1), Some(0), Some([1, 0, 1])),
            (Some(0), Some(1), Some([-1, 0, 0])),
            (Some(1), Some(1), Some([0, 1, 0])),
            (Some(MOST), Some(0), Some([END, 0, END])),
            (Some(0), Some(MOST), Some([-END, 0, 0])),
            (Some(MOST), Some(MOST), Some([0, END, 0])),
            (Some(MOST), Some(1), Some([END - 1, 1, END - 1])),
            (Some(1), Some(MOST), Some([1 - END, 1, 0])),
            (Some(MOST), Some(MOST - 1), Some([1, END - 1, 1])),
            (Some(MOST - 1), Some(MOST), Some([-1, END - 1, 0])),
            (Some(0x8000_0000), Some(0x7FFF_FFFF), Some([1, 0x7FFF_FFFF, 1])),
            (Some(0x7FFF_FFFF), Some(0x8000_0000), Some([-1, 0x7FFF_FFFF, 0])),
            (Some(5), None, None),
            (None, Some(5), None),
            (None, None, None),
        ],
    );
    // one slice each: all that can be
    read_back(
        [1, 1],
        &[
            (Some(0), Some(0), Some([0, 0, 0])),
            (Some(0), Some(1), Some([-1, 0, 0])),
            (Some(1), Some(0), Some([1, 0, 1])),
            (Some(1), Some(1), Some([0, 1, 0])),
        ],
    );
}

/// The narrower column has zeros above its slices, be it the first or the second.
#[test]
fn unequal_widths() {
    read_back(
        [3, 32],
        &[
            (Some(7), Some(0), Some([7, 0, 7])),
            (Some(7), Some(7), Some([0, 7, 0])),
            (Some(7), Some(8), Some([-1, 7, 0])),
            (Some(0), Some(u32::MAX), Some([-4_294_967_295, 0, 0])),
            (Some(7), None, None),
        ],
    );
    read_back(
        [32, 3],
        &[
            (Some(0), Some(7), Some([-7, 0, 0])),
            (Some(7), Some(7), Some([0, 7, 0])),
            (Some(8), Some(7), Some([1, 7, 1])),
            (Some(u32::MAX), Some(0), Some([4_294_967_295, 0, 4_294_967_295])),
            (None, Some(7), None),
        ],
    );
}

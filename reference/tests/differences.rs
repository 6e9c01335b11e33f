//! Differences, the smaller of two columns, and signed values, worked out by hand.

mod common;
use common::bodies::settled;
use common::columns::*;
use common::*;
use reference::limits::*;
use reference::*;

const ANY: usize = usize::MAX;
const BAD: Refusal = Refusal { number: 8, bitmap: 0, word: 0 };
const CALLS: [Pairs; 3] = [signed_difference, smaller, difference_or_zero];

/// The list of a whole index: existence, then all its slices.
fn whole(index: &[u32]) -> Vec<u32> {
    (0..index[2]).collect()
}

#[test]
fn signed_values() {
    let index = small();
    // Digits 01, 10, 11.
    assert_eq!([0, 1, 2].map(|r| signed_value(&index, &[0, 1, 2], r)), [Ok(1), Ok(-2), Ok(-1)]);
    // A sign alone.
    assert_eq!([0, 1, 2].map(|r| signed_value(&index, &[0, 1], r)), [Ok(-1), Ok(0), Ok(-1)]);
    assert_eq!([1, 2, 3].map(|r| signed_value(&index, &[3, 4], r)), [Ok(-1), Ok(-1), Ok(0)]);
    // The sign is a lower slice as well: 101, 010, 111. It is existence: 1 and so many.
    assert_eq!([0, 1, 2].map(|r| signed_value(&index, &[0, 1, 2, 1], r)), [Ok(-3), Ok(2), Ok(-1)]);
    assert_eq!([0, 1, 2].map(|r| signed_value(&index, &[0, 1, 2, 0], r)), [Ok(-3), Ok(-2), Ok(-1)]);
    for length in LEAST_COLUMN..=MOST_VALUED {
        assert_eq!(signed_value(&index, &vec![0; length], 0), Ok(-1));
    }
}

#[test]
fn signed_ends() {
    let index = index_of(32, &[&[3], &[2]]);
    let mut list = [0; MOST_VALUED];
    list[MOST_VALUED - 1] = 1;
    assert_eq!(signed_value(&index, &list, 31), Ok(4_294_967_295));
    let mut list = [1; MOST_VALUED];
    (list[0], list[MOST_VALUED - 1]) = (0, 0);
    assert_eq!(signed_value(&index, &list, 31), Ok(-4_294_967_296));
    list[1] = 0;
    assert_eq!(signed_value(&index, &list, 31), Ok(-4_294_967_295));
}

#[test]
fn whole_indexes() {
    let index = small();
    let (wide, narrow) = (&[0, 1, 2], &[3, 4]);
    // Row 1: 2 - 1 = 1. Row 2: 3 - 1 = 2.
    let due = index_of(4, &[&one(0x6), &one(0x2), &one(0x4), &[2]]);
    assert_eq!(written(signed_difference, &index, wide, narrow), due);
    assert_eq!([1, 2].map(|r| signed_value(&due, &[0, 1, 2, 3], r)), [Ok(1), Ok(2)]);
    assert_eq!(written(difference_or_zero, &index, wide, narrow), index_of(4, &[&one(0x6), &one(0x2), &one(0x4)]));
    // -1 is 111, -2 is 110.
    let due = index_of(4, &[&one(0x6), &one(0x2), &one(0x6), &one(0x6)]);
    assert_eq!(written(signed_difference, &index, narrow, wide), due);
    assert_eq!([1, 2].map(|r| signed_value(&due, &[0, 1, 2, 3], r)), [Ok(-1), Ok(-2)]);
    assert_eq!([0, 3].map(|r| signed_value(&due, &[0, 1, 2, 3], r)), [Err(BAD); 2]);
    assert_eq!(written(difference_or_zero, &index, narrow, wide), index_of(4, &[&one(0x6), &[2], &[2]]));
    // 1 in both rows.
    let due = index_of(4, &[&one(0x6), &one(0x6), &[2]]);
    assert_eq!(written(smaller, &index, wide, narrow), due);
    assert_eq!(written(smaller, &index, narrow, wide), due);
}

#[test]
fn first_is_second() {
    let index = small();
    let due = index_of(4, &[&one(0x7), &[2], &[2], &[2]]);
    assert_eq!(written(signed_difference, &index, &[0, 1, 2], &[0, 1, 2]), due);
    assert_eq!(written(smaller, &index, &[0, 1, 2], &[0, 1, 2]), index_of(4, &[&one(0x7), &one(0x5), &one(0x6)]));
    assert_eq!(written(difference_or_zero, &index, &[0, 1, 2], &[0, 1, 2]), index_of(4, &[&one(0x7), &[2], &[2]]));
}

#[test]
fn both_ends() {
    let index = index_of(32, &[&[3], &[2]]);
    let (most, zero) = (&[0; MOST_SUMMED][..], &[0, 1][..]);
    // Existence and 32 digits, then the sign.
    let mut bodies = vec![&[3][..]; 34];
    bodies[33] = &[2];
    let up = written(signed_difference, &index, most, zero);
    assert_eq!(up, index_of(32, &bodies));
    assert_eq!(signed_value(&up, &whole(&up), 0), Ok(4_294_967_295));
    // -2^32 + 1: the sign and the lowest digit.
    let mut bodies = vec![&[2][..]; 34];
    (bodies[0], bodies[1], bodies[33]) = (&[3], &[3], &[3]);
    let down = written(signed_difference, &index, zero, most);
    assert_eq!(down, index_of(32, &bodies));
    assert_eq!(signed_value(&down, &whole(&down), 31), Ok(-4_294_967_295));

    let mut bodies = vec![&[2][..]; 33];
    bodies[0] = &[3];
    let nothing = index_of(32, &bodies);
    let everything = index_of(32, &[&[3][..]; 33]);
    for (first, second) in [(most, zero), (zero, most)] {
        assert_eq!(written(smaller, &index, first, second), nothing);
    }
    assert_eq!(written(difference_or_zero, &index, most, zero), everything);
    assert_eq!(written(difference_or_zero, &index, zero, most), nothing);
    assert_eq!(written(smaller, &index, most, most), everything);
}

/// An index of two columns with these numbers in rows 0 and up, and how many slices each has.
fn with_numbers(format: Format, pairs: &[(u64, u64)], widths: (usize, usize)) -> (Vec<u32>, Vec<u32>, Vec<u32>) {
    let digit = |number: u64, place: usize| number >> place & 1 == 1;
    let mut bitmaps = vec![vec![true; pairs.len()]];
    bitmaps.extend((0..widths.0).map(|place| pairs.iter().map(|pair| digit(pair.0, place)).collect()));
    bitmaps.extend((0..widths.1).map(|place| pairs.iter().map(|pair| digit(pair.1, place)).collect()));
    let bodies: Vec<Vec<u32>> = bitmaps.iter().map(|rows| settled(rows, format)).collect();
    let index = index_in(format, pairs.len() as u32, &bodies.iter().map(|body| &body[..]).collect::<Vec<_>>());
    let numbers: Vec<u32> = (1..).take(widths.0 + widths.1).collect();
    let (first, second) = numbers.split_at(widths.0);
    (index, [&[0], first].concat(), [&[0], second].concat())
}

/// Each of these numbers less each of those, by columns of so many slices.
fn every_two(firsts: &[u64], seconds: &[u64], widths: (usize, usize)) {
    let pairs: Vec<(u64, u64)> = firsts.iter().flat_map(|&a| seconds.iter().map(move |&b| (a, b))).collect();
    for format in Format::ALL {
        let (index, first, second) = with_numbers(format, &pairs, widths);
        let [difference, least, or_zero] = CALLS.map(|call| written(call, &index, &first, &second));
        let wider = widths.0.max(widths.1) as u32;
        assert_eq!([difference[2], least[2], or_zero[2]], [wider + 2, wider + 1, wider + 1]);
        for (row, &(a, b)) in (0..).zip(&pairs) {
            let less = a as i64 - b as i64;
            assert_eq!(signed_value(&difference, &whole(&difference), row), Ok(less), "{a} - {b}");
            assert_eq!(value(&least, &whole(&least), row), Ok(a.min(b)), "{a}, {b}");
            assert_eq!(value(&or_zero, &whole(&or_zero), row), Ok(less.max(0) as u64), "{a} - {b}");
        }
    }
}

/// The least, the largest and the middle of so many digits, and their neighbours.
fn numbers_of(width: usize) -> Vec<u64> {
    let end = 1u64 << width;
    let mut all = vec![0, 1, end / 2 - 1, end / 2, (end / 2 + 1).min(end - 1), end.saturating_sub(2), end - 1];
    all.sort();
    all.dedup();
    all
}

#[test]
fn every_width() {
    for first in [1, 2, 3, 8, 31, 32] {
        for second in [1, 2, 3, 8, 31, 32] {
            every_two(&numbers_of(first), &numbers_of(second), (first, second));
        }
    }
    let all: Vec<u64> = (0..16).collect();
    every_two(&all, &all[..8], (4, 3));
    every_two(&all[..8], &all, (3, 4));
}

#[test]
fn existence() {
    let index = halves();
    let none = [4];
    // In no row together; then in the second segment: 1 - 1 = 0.
    for (first, second) in [([2, 2], [3, 3]), ([0, 0], [1, 1])] {
        assert_eq!(written(signed_difference, &index, &first, &second), index_of(64, &[&none, &none, &none]));
        for call in [smaller, difference_or_zero] {
            assert_eq!(written(call, &index, &first, &second), index_of(64, &[&none, &none]));
        }
    }
    let later = [2, 3];
    assert_eq!(written(signed_difference, &index, &[1, 1], &[3, 3]), index_of(64, &[&later, &none, &none]));
    assert_eq!(written(smaller, &index, &[1, 1], &[3, 3]), index_of(64, &[&later, &later]));
    // 0 - 1 = -1 there, and nothing where the second column has no row.
    assert_eq!(written(signed_difference, &index, &[1, 0], &[3, 3]), index_of(64, &[&later, &later, &later]));
    assert_eq!(written(difference_or_zero, &index, &[1, 0], &[3, 3]), index_of(64, &[&later, &none]));
    assert_eq!(written(difference_or_zero, &index, &[1, 1], &[3, 0]), index_of(64, &[&later, &later]));
}

#[test]
fn no_rows() {
    for body in [&[][..], &[0], &[1, 0]] {
        let index = index_of(0, &[body]);
        assert_eq!(written(signed_difference, &index, &[0, 0], &[0, 0]), [1, 0, 3, 9, 0, 9, 0, 9, 0]);
        for call in [smaller, difference_or_zero] {
            assert_eq!(written(call, &index, &[0, 0], &[0, 0]), [1, 0, 2, 7, 0, 7, 0]);
        }
        assert_eq!(signed_value(&index, &[0, 0], 0), Err(BAD));
    }
}

#[test]
fn pads_are_no_rows() {
    // All rows as a run and as a dirty word; all but row 39.
    let index = index_of(40, &[&[5], &[0x0002_0003, 0xFF], &[0x0002_0003, 0x7F]]);
    for list in [[0, 0], [0, 1], [1, 0], [1, 1]] {
        assert_eq!([0, 39].map(|r| signed_value(&index, &list, r)), [Ok(-1); 2]);
        assert_eq!([40, 63].map(|r| signed_value(&index, &list, r)), [Err(BAD); 2]);
        // 1 - 0 = 1 in row 39 alone; the other way round -1.
        let row_39 = [0x0002_0002, 0x80];
        let due = index_of(40, &[&[5], &row_39, &[4]]);
        assert_eq!(written(signed_difference, &index, &list, &[0, 2]), due);
        let due = index_of(40, &[&[5], &row_39, &row_39]);
        assert_eq!(written(signed_difference, &index, &[0, 2], &list), due);
        assert_eq!(written(smaller, &index, &[0, 2], &list), index_of(40, &[&[5], &[0x0002_0003, 0x7F]]));
    }
}

#[test]
fn long_runs() {
    const ROWS: u32 = 2_097_152;
    let (none, all) = (&[0x0001_FFFE, 0x0000_0002][..], &[0x0001_FFFF, 0x0000_0003][..]);
    let index = index_of(ROWS, &[none, all]);
    // 2 - 2 = 0, 2 - 1 = 1, 1 - 2 = -1.
    let of = |first: &[u32], second: &[u32]| written(signed_difference, &index, first, second);
    assert_eq!(of(&[1, 0, 1], &[1, 0, 1]), index_of(ROWS, &[all, none, none, none]));
    assert_eq!(of(&[1, 0, 1], &[1, 1]), index_of(ROWS, &[all, all, none, none]));
    assert_eq!(of(&[1, 1], &[1, 0, 1]), index_of(ROWS, &[all, all, all, all]));
    assert_eq!(written(smaller, &index, &[1, 1], &[1, 0, 1]), index_of(ROWS, &[all, all, none]));
}

#[test]
fn eight_lists_and_rows() {
    let index = small();
    let good = [0, 1, 2];
    for wrong in [&[][..], &[0], &[0; 34], &[0; 35], &[0, 5], &[5, 0], &[0, u32::MAX]] {
        for call in CALLS {
            assert_eq!(call(&index, wrong, &good, 0), Err(BAD));
            assert_eq!(call(&index, &good, wrong, 0), Err(BAD));
        }
        if wrong.len() != MOST_VALUED {
            assert_eq!(signed_value(&index, wrong, 0), Err(BAD));
        }
    }
    // Row 3 doesn't exist; the others are past the end.
    for row in [3, 4, 31, 32, u32::MAX] {
        assert_eq!(signed_value(&index, &good, row), Err(BAD));
    }
}

#[test]
fn order_of_refusals() {
    let index = strays();
    // Index, then 8, then 11, then 9. Row 39 doesn't exist.
    for row in [39, 40, u32::MAX] {
        assert_eq!(signed_value(&index, &[0, 2], row), Err(BAD));
    }
    assert_eq!(signed_value(&index, &[0, 2], 0), Err(no(11, 2, 39)));
    assert_eq!(signed_value(&index, &[&[0; 33][..], &[2]].concat(), 0), Err(no(11, 2, 39)));
    for call in CALLS {
        assert_eq!(call(&index, &[0, 2], &[0], 0), Err(BAD));
        assert_eq!(call(&index, &[0, 2], &[0, 6], 0), Err(BAD));
        assert_eq!(call(&index, &[6, 0], &[0, 2], 0), Err(BAD));
        // The first column first, each held against its own existence.
        assert_eq!(call(&index, &[0, 2], &[1, 4], 0), Err(no(11, 2, 39)));
        assert_eq!(call(&index, &[1, 4], &[0, 2], 0), Err(no(11, 4, 7)));
        assert_eq!(call(&index, &[1, 1], &[0, 0, 2], 0), Err(no(11, 2, 39)));
        assert_eq!(call(&index, &[0, 4], &[1, 2], ANY).map(|_| ()), Ok(()));
    }
    let mut damaged = index;
    let last = damaged.len() - 1;
    damaged[last] = 7;
    let fault = no(6, 5, last as u64);
    assert_eq!(signed_value(&damaged, &[], 40), Err(fault));
    for call in CALLS {
        assert_eq!(call(&damaged, &[], &[], 0), Err(fault));
    }
}

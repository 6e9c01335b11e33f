//! The k largest and the k smallest rows, worked out by hand.

mod common;
use common::bodies::{bodies, settled};
use common::columns::*;
use common::*;
use reference::limits::*;
use reference::*;

const ANY: usize = usize::MAX;
const BAD: Refusal = Refusal { number: 8, bitmap: 0, word: 0 };

type Ranking = fn(&[u32], &[u32], u32, usize) -> Result<Vec<u32>, Refusal>;
const CALLS: [Ranking; 2] = [largest, smallest];

/// What a call writes into just the room that it needs; with one word less, or none, it is refused with that number.
fn ranked(call: Ranking, index: &[u32], list: &[u32], k: u32) -> Vec<u32> {
    let words = call(index, list, k, ANY).unwrap();
    let need = words.len();
    assert_eq!(call(index, list, k, need).as_ref(), Ok(&words));
    for room in [0, need.saturating_sub(1)] {
        if room < need {
            assert_eq!(call(index, list, k, room), Err(no(9, 0, need as u64)));
        }
    }
    words
}

/// A column with these numbers; none where there is no row. Its list has all bitmaps in order.
fn column_of(format: Format, numbers: &[Option<u64>], digits: usize) -> (Vec<u32>, Vec<u32>) {
    let exists: Vec<bool> = numbers.iter().map(|number| number.is_some()).collect();
    let slice = |place: usize| numbers.iter().map(|n| n.is_some_and(|n| n >> place & 1 == 1)).collect();
    let all: Vec<Vec<bool>> = std::iter::once(exists).chain((0..digits).map(slice)).collect();
    let bodies: Vec<Vec<u32>> = all.iter().map(|rows| settled(rows, format)).collect();
    let bodies: Vec<&[u32]> = bodies.iter().map(|body| &body[..]).collect();
    (index_in(format, numbers.len() as u32, &bodies), (0..=digits as u32).collect())
}

/// 3, 1, 3, 2, none, 3.
const SIX: [Option<u64>; 6] = [Some(3), Some(1), Some(3), Some(2), None, Some(3)];

#[test]
fn six_rows() {
    let due: [(Ranking, [u32; 6]); 2] =
        [(largest, [0, 0x1, 0x5, 0x25, 0x2D, 0x2F]), (smallest, [0, 0x2, 0xA, 0xB, 0xF, 0x2F])];
    for format in Format::ALL {
        let (index, list) = column_of(format, &SIX, 2);
        for (call, rows) in due {
            for (k, rows) in (0..).zip(rows) {
                let body = match (format, rows) {
                    (Ewah, 0) => vec![2],
                    (Ewah, _) => one(rows).to_vec(),
                    (Wah, _) => vec![rows],
                };
                assert_eq!(ranked(call, &index, &list, k), body, "{format:?} {k}");
            }
            for k in [6, 7, 31, 32, u32::MAX] {
                assert_eq!(call(&index, &list, k, ANY), Err(BAD));
            }
        }
    }
}

/// Equal numbers are cut at a segment's end and beside it; then there are two numbers, which lie the other way round.
#[test]
fn cut_at_segments() {
    let (all, none, middle) = ([0x7], [0x6], [0x2, 0x3, 0x2]);
    let index = index_of(96, &[&all, &none, &middle]);
    let due: [(u32, &[u32]); 7] = [
        (0, &[0x6]),
        (1, &[0x0002_0000, 0x1, 0x4]),
        (31, &[0x0002_0000, 0x7FFF_FFFF, 0x4]),
        (32, &[0x3, 0x4]),
        (33, &[0x0002_0003, 0x1, 0x2]),
        (64, &[0x5, 0x2]),
        (96, &[0x7]),
    ];
    for (k, body) in due {
        for call in CALLS {
            assert_eq!(ranked(call, &index, &[0, 1], k), body);
            assert_eq!(ranked(call, &index, &[0, 0], k), body);
        }
    }
    // Rows 32 to 63 are 1: first these, or first the others.
    assert_eq!(ranked(largest, &index, &[0, 2], 31), [0x0002_0002, 0x7FFF_FFFF, 0x2]);
    assert_eq!(ranked(largest, &index, &[0, 2], 32), middle);
    assert_eq!(ranked(largest, &index, &[0, 2], 33), [0x0002_0000, 0x1, 0x3, 0x2]);
    assert_eq!(ranked(smallest, &index, &[0, 2], 32), [0x3, 0x4]);
    assert_eq!(ranked(smallest, &index, &[0, 2], 33), [0x3, 0x0002_0002, 0x1]);
    assert_eq!(ranked(smallest, &index, &[0, 2], 65), [0x0002_0003, 0x1, 0x3]);

    let index = index_in(Wah, 93, &[&[0xC000_0003], &[0x8000_0003], &[0, 0x7FFF_FFFF, 0]]);
    let due: [(u32, &[u32]); 7] = [
        (0, &[0x8000_0003]),
        (30, &[0x3FFF_FFFF, 0x8000_0002]),
        (31, &[0x7FFF_FFFF, 0x8000_0002]),
        (32, &[0x7FFF_FFFF, 0x1, 0]),
        (61, &[0x7FFF_FFFF, 0x3FFF_FFFF, 0]),
        (62, &[0xC000_0002, 0]),
        (93, &[0xC000_0003]),
    ];
    for (k, body) in due {
        for call in CALLS {
            assert_eq!(ranked(call, &index, &[0, 1], k), body);
        }
    }
    assert_eq!(ranked(largest, &index, &[0, 2], 32), [0x1, 0x7FFF_FFFF, 0]);
    assert_eq!(ranked(smallest, &index, &[0, 2], 32), [0x7FFF_FFFF, 0, 0x1]);
}

#[test]
fn all_and_none() {
    for format in Format::ALL {
        let numbers: Vec<Option<u64>> = (0..100).map(|row| (row % 3 > 0).then_some(row % 7)).collect();
        let (index, list) = column_of(format, &numbers, 3);
        let exists: Vec<bool> = numbers.iter().map(|number| number.is_some()).collect();
        for call in CALLS {
            assert_eq!(ranked(call, &index, &list, 66), settled(&exists, format));
            assert_eq!(ranked(call, &index, &list, 0), settled(&[false; 100], format));
            assert_eq!(call(&index, &list, 67, ANY), Err(BAD));
        }
    }
    // No row exists; there are no rows.
    for call in CALLS {
        assert_eq!(ranked(call, &halves(), &[0, 0], 0), [4]);
        assert_eq!(call(&halves(), &[0, 0], 1, ANY), Err(BAD));
        for body in [&[][..], &[0], &[1, 0]] {
            let index = index_of(0, &[body]);
            assert_eq!(call(&index, &[0, 0], 0, 0), Ok(vec![]));
            assert_eq!(call(&index, &[0, 0], 1, 0), Err(BAD));
        }
    }
}

/// The last segment has pads, and existence has them under a run of ones or not.
#[test]
fn pads_are_no_rows() {
    for rows in [1, 30, 31, 32, 33, 40, 62, 63, 93, 96] {
        for format in Format::ALL {
            let all = vec![true; rows];
            for exists in bodies(&all, format) {
                let none = settled(&vec![false; rows], format);
                let index = index_in(format, rows as u32, &[&exists, &none]);
                for (call, list) in CALLS.into_iter().flat_map(|call| [(call, [0, 0]), (call, [0, 1])]) {
                    for k in [0, 1, rows - 1, rows] {
                        let first: Vec<bool> = (0..rows).map(|row| row < k).collect();
                        assert_eq!(ranked(call, &index, &list, k as u32), settled(&first, format));
                    }
                    for k in [rows as u32 + 1, 64, 96, u32::MAX].into_iter().filter(|&k| k > rows as u32) {
                        assert_eq!(call(&index, &list, k, ANY), Err(BAD));
                    }
                }
            }
        }
    }
}

#[test]
fn numbers_of_32_digits() {
    let high = 1 << 31;
    let numbers = [high, high - 1, u64::from(u32::MAX), 0, high + 1].map(Some);
    for format in Format::ALL {
        let (index, list) = column_of(format, &numbers, 32);
        let body = |rows: &[usize]| settled(&[0, 1, 2, 3, 4].map(|row| rows.contains(&row)), format);
        for (k, rows) in (1..).zip([&[2][..], &[2, 4], &[2, 4, 0], &[2, 4, 0, 1]]) {
            assert_eq!(ranked(largest, &index, &list, k), body(rows));
        }
        for (k, rows) in (1..).zip([&[3][..], &[3, 1], &[3, 1, 0], &[3, 1, 0, 4]]) {
            assert_eq!(ranked(smallest, &index, &list, k), body(rows));
        }
    }
}

/// A bitmap counts in each place that it is named in: 1, 2, 3 are 5, 2, 7, or 3, 4, 7; or all the same.
#[test]
fn repeats() {
    let index = small();
    let due: [(&[u32], [u32; 2], [u32; 2]); 4] = [
        (&[0, 1, 2], [0x4, 0x6], [0x1, 0x3]),
        (&[0, 1, 2, 1], [0x4, 0x5], [0x2, 0x3]),
        (&[0, 1, 1, 2], [0x4, 0x6], [0x1, 0x3]),
        (&[0, 0, 0], [0x1, 0x3], [0x1, 0x3]),
    ];
    for (list, most, least) in due {
        for (k, (most, least)) in (1..).zip(most.into_iter().zip(least)) {
            assert_eq!(ranked(largest, &index, list, k), one(most));
            assert_eq!(ranked(smallest, &index, list, k), one(least));
        }
    }
    for length in LEAST_COLUMN..=MOST_SUMMED {
        assert_eq!(ranked(largest, &index, &vec![0; length], 2), one(0x3));
    }
}

#[test]
fn long_runs() {
    // 65,536 segments.
    let index = index_of(2_097_152, &[&[0x1_FFFF, 0x3], &[0x1_FFFE, 0x2]]);
    let due: [(u32, &[u32]); 4] = [
        (2_097_119, &[0x3_FFFD, 0x7FFF_FFFF, 0x2]),
        (2_097_120, &[0x1_FFFF, 0x2]),
        (2_097_121, &[0x3_FFFF, 0x1]),
        (2_097_152, &[0x1_FFFF, 0x3]),
    ];
    for (k, body) in due {
        for call in CALLS {
            assert_eq!(ranked(call, &index, &[0, 1], k), body);
        }
    }
}

#[test]
fn the_most_rows() {
    // 2^24 segments of ones, and as many of zeros: 256 full markers and 256 segments each.
    let half = [&[0x1_FFFF; 256][..], &[0x201], &[0x1_FFFE; 256], &[0x200]].concat();
    let all = [&[0x1_FFFF; 512][..], &[0x401]].concat();
    let index = index_of(MOST_ROWS, &[&all]);
    for call in CALLS {
        assert_eq!(ranked(call, &index, &[0, 0], MOST_ROWS / 2), half);
        assert_eq!(ranked(call, &index, &[0, 0], MOST_ROWS), all);
        assert_eq!(call(&index, &[0, 0], MOST_ROWS + 1, ANY), Err(BAD));
    }
    // 31 * 17,318,416 rows and 16 more; 34,636,834 segments in all.
    let index = index_in(Wah, MOST_ROWS, &[&[0xC000_0000 + 34_636_834]]);
    let half = [0xC000_0000 + 17_318_416, 0xFFFF, 0x8000_0000 + 17_318_417];
    for call in CALLS {
        assert_eq!(ranked(call, &index, &[0, 0], MOST_ROWS / 2), half);
    }
}

#[test]
fn eight() {
    let index = small();
    for wrong in [&[][..], &[0], &[0; 34], &[0; 35], &[0, 5], &[5, 0], &[0, u32::MAX]] {
        for call in CALLS {
            for k in [0, 1, 4] {
                assert_eq!(call(&index, wrong, k, 0), Err(BAD));
            }
        }
    }
}

#[test]
fn order_of_refusals() {
    let index = strays();
    for call in CALLS {
        // Index, then 8, then 11, then 9. Of 32 rows that exist, 32 can be asked for.
        for k in [33, 40, 41, u32::MAX] {
            assert_eq!(call(&index, &[0, 2], k, 0), Err(BAD));
        }
        for list in [&[0][..], &[0, 2, 6], &[6, 2], &[&[0; 33][..], &[2]].concat()] {
            assert_eq!(call(&index, list, 1, 0), Err(BAD));
        }
        for k in [0, 1, 32] {
            assert_eq!(call(&index, &[0, 2], k, 0), Err(no(11, 2, 39)));
        }
        // The first slice in list order, then its lowest row.
        assert_eq!(call(&index, &[0, 4, 3, 2], 1, ANY), Err(no(11, 3, 35)));
        assert_eq!(call(&index, &[1, 2, 4, 3], 1, ANY), Err(no(11, 4, 7)));
        assert_eq!(call(&index, &[1, 1, 3, 4], 8, ANY), Err(no(11, 3, 3)));
        // No row exists.
        assert_eq!(call(&index, &[5, 4], 0, 0), Err(no(11, 4, 7)));
        assert_eq!(call(&index, &[5, 4], 1, 0), Err(BAD));
        assert_eq!(call(&index, &[0, 4], 32, 1), Err(no(9, 0, 2)));
    }
    let mut damaged = index;
    let last = damaged.len() - 1;
    damaged[last] = 7;
    let fault = no(6, 5, last as u64);
    for call in CALLS {
        assert_eq!(call(&damaged, &[0, 2], 33, 0), Err(fault));
        assert_eq!(call(&damaged, &[], 0, 0), Err(fault));
    }
}

/// Each row by itself, for columns by chance.
#[test]
fn row_by_row() {
    let mut dice = Dice(8);
    for turn in 0..600 {
        let format = Format::ALL[turn % 2];
        let (rows, digits, stretch) = (1 + dice.below(140), 1 + dice.below(4), 1 + dice.below(40));
        let (mut numbers, mut number) = (Vec::new(), None);
        for _ in 0..rows {
            if dice.below(stretch) == 0 {
                number = (dice.below(4) > 0).then_some(u64::from(dice.below(1 << digits)));
            }
            numbers.push(number);
        }
        let (index, list) = column_of(format, &numbers, digits as usize);
        let mut sorted: Vec<(u64, usize)> =
            numbers.iter().enumerate().filter_map(|(row, number)| Some(((*number)?, row))).collect();
        let k = dice.below(sorted.len() as u32 + 1);
        let first = |sorted: &[(u64, usize)]| {
            let taken: Vec<usize> = sorted[..k as usize].iter().map(|&(_, row)| row).collect();
            settled(&(0..numbers.len()).map(|row| taken.contains(&row)).collect::<Vec<_>>(), format)
        };
        sorted.sort();
        assert_eq!(ranked(smallest, &index, &list, k), first(&sorted));
        sorted.sort_by_key(|&(number, row)| (u64::MAX - number, row));
        assert_eq!(ranked(largest, &index, &list, k), first(&sorted));
    }
}

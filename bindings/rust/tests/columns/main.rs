//! Columns: readings of values and sums, and of all calls each refusal and its place, and the limits. `differences` and
//! `first_rows` have the readings of the other calls, and `by_chance` columns by chance.

mod by_chance;
mod differences;
mod first_rows;
#[path = "../shared/mod.rs"]
mod shared;
mod two_columns;

use first_rows::FIRST_ROWS;
use shared::{no_room, said, told, writes, Numbers, BAD, LOOPED, UNTOUCHED};
use two_columns::{whole, Made, EIGHT, HIGH, LOW, MADE};
use zvonurel::*;

const STRAY: [u32; 2] = [0, 5];
const HIGH_STRAY: [u32; 2] = [3, 5];

fn stray<T>(bitmap: u32, row: u64) -> Result<T, Numbers> {
    Err((Refusal::STRAY_ROW, bitmap, row))
}

#[test]
fn values() {
    for (row, want) in [1, 2, 3, 0].into_iter().enumerate() {
        assert_eq!(value(&EIGHT, &LOW, row as u32), Ok(want));
    }
    assert_eq!(value(&EIGHT, &HIGH, 4), Ok(1));
    // a bitmap may be named more than once, for existence too
    assert_eq!(value(&EIGHT, &[0, 0, 1, 0], 3), Ok(5));
    for row in [4, 7, 8, u32::MAX] {
        assert_eq!(told(value(&EIGHT, &LOW, row)), Err(BAD));
    }
}

#[test]
fn sums() {
    let want = [1, 8, 4, 11, 2, 13, 2, 15, 2, 17, 2, 0x20000, 0xE, 0x20000, 0x2, 0x20000, 0x2, 0x20000, 0x4];
    writes(&want, |out| sum(&EIGHT, &LOW, &HIGH, out));
    writes(&want, |out| sum(&EIGHT, &HIGH, &LOW, out));
    assert_eq!([1, 2, 3].map(|row| value(&want, &[0, 1, 2, 3], row)), [Ok(3), Ok(4), Ok(0)]);
    assert_eq!(told(value(&want, &[0, 1, 2, 3], 0)), Err(BAD));
    // slice 0 is empty, and is there
    let twice = [1, 8, 4, 11, 2, 13, 1, 14, 2, 16, 2, 0x20000, 0xF, 0x2, 0x20000, 0x5, 0x20000, 0x6];
    writes(&twice, |out| sum(&EIGHT, &LOW, &LOW, out));
    assert_eq!(told(sum(&EIGHT, &LOW, &HIGH, &mut [])), no_room(19));
    // no rows: three bitmaps without a word
    let none = [1, 0, 1, 5, 0];
    writes(&[1, 0, 3, 9, 0, 9, 0, 9, 0], |out| sum(&none, &[0, 0], &[0, 0], out));
    assert_eq!(said(value(&none, &[0, 0], 0)), "there is no row 0, of 0 counted from 0");
}

/// As many numbers as its name says pass, and one more, or one less, does not. The widest columns are read back: row 3
/// has 2^32 - 1 twice.
#[test]
fn limits() {
    assert_eq!(value(&EIGHT, &[0; LEAST_COLUMN], 3), Ok(1));
    assert_eq!(told(value(&EIGHT, &[0; LEAST_COLUMN - 1], 3)), Err(BAD));
    assert_eq!(value(&EIGHT, &[0; MOST_VALUE_COLUMN], 3), Ok((1 << 33) - 1));
    assert_eq!(told(value(&EIGHT, &[0; MOST_VALUE_COLUMN + 1], 3)), Err(BAD));

    let most = [0; MOST_COLUMN];
    for (Made { call, of, more, read }, need) in MADE.into_iter().zip([138, 106, 135, 103]) {
        let mut out = vec![UNTOUCHED; most_sum_words(8, MOST_COLUMN - 1)];
        for (first, second) in [(&[0; MOST_COLUMN + 1][..], &most[..]), (&most, &[0; LEAST_COLUMN - 1])] {
            assert_eq!(told(call(&EIGHT, first, second, &mut out)), Err(BAD));
            assert_eq!(told(call(&EIGHT, second, first, &mut out)), Err(BAD));
        }
        assert!(out.iter().all(|w| *w == UNTOUCHED));
        let words = call(&EIGHT, &most, &most, &mut out).unwrap();
        assert_eq!((words, out[2] as usize), (need, MOST_COLUMN + more));
        assert_eq!(read(&out[..words], &whole(&out), 3), Ok(of(u32::MAX.into(), u32::MAX.into())));
    }
    for call in FIRST_ROWS {
        for list in [&[0; MOST_COLUMN + 1][..], &[0; LEAST_COLUMN - 1]] {
            assert_eq!(told(call(&EIGHT, list, 0, &mut [UNTOUCHED; 2])), Err(BAD));
        }
        for list in [&most[..], &[0; LEAST_COLUMN]] {
            writes(&[0x20000, 0x7], |out| call(&EIGHT, list, 3, out));
        }
    }
}

/// Columns that need all the room that there can be: of each segment rows 0 and 1 exist. Row 0 has 1 in one column and 0
/// in the other, and row 1 has 1 in both.
#[test]
fn longest_columns() {
    for segments in [2, MOST_DIRTY + 1] {
        let rows = (segments * WORD_BITS) as u32;
        let mut builder = IndexBuilder::new(rows);
        builder.add_plain(&vec![3; segments]).unwrap();
        builder.add_plain(&vec![2; segments]).unwrap();
        let index = builder.build().unwrap();
        let (ones, fewer) = ([0, 0], [0, 1]);
        // the fewer less the ones are -1 at row 0, which both slices then have
        let lists = [(&ones, &fewer), (&fewer, &ones), (&fewer, &ones), (&ones, &fewer)];
        for (Made { call, more, .. }, (first, second)) in MADE.into_iter().zip(lists) {
            let need = Format::Ewah.most_new_index_words(rows, 2 + more);
            let mut out = vec![UNTOUCHED; need];
            assert_eq!(told(call(&index, first, second, &mut out[1..])), no_room(need as u64));
            assert_eq!(call(&index, first, second, &mut out), Ok(need));
            assert!(need <= most_sum_words(rows, 1));
        }
    }
}

/// 8 comes before 11, of either list, and 11 before 9; the first slice in the order of the lists, and its lowest row.
#[test]
fn strays() {
    for (list, row, want) in [
        (&STRAY[..], 0, stray(5, 5)),
        (&HIGH_STRAY, 1, stray(5, 0)),
        (&[0, 1, 5, 4], 1, stray(5, 5)),
        (&[0, 4, 5], 1, stray(4, 4)),
        (&STRAY, 5, Err(BAD)),
        (&STRAY, 8, Err(BAD)),
    ] {
        assert_eq!(told(value(&EIGHT, list, row)), want);
        assert_eq!(told(signed_value(&EIGHT, list, row)).err(), want.err());
    }
    for Made { call, .. } in MADE {
        assert_eq!(told(call(&EIGHT, &STRAY, &[0, 6], &mut [])), Err(BAD));
        assert_eq!(told(call(&EIGHT, &STRAY, &HIGH_STRAY, &mut [])), stray(5, 5));
        assert_eq!(told(call(&EIGHT, &HIGH_STRAY, &STRAY, &mut [])), stray(5, 0));
        let mut out = [UNTOUCHED; 20];
        assert_eq!(told(call(&EIGHT, &LOW, &HIGH_STRAY, &mut out)), stray(5, 0));
        assert_eq!(out, [UNTOUCHED; 20]);
    }
    for call in FIRST_ROWS {
        for (list, existing, want) in [
            (&STRAY[..], 4, stray(5, 5)),
            (&HIGH_STRAY, 4, stray(5, 0)),
            (&[0, 1, 5, 4], 4, stray(5, 5)),
            (&[0, 4, 5], 4, stray(4, 4)),
            (&[5, 1, 4], 2, stray(1, 2)),
        ] {
            // however many of the rows are asked for
            for k in 0..=existing {
                let mut out = [UNTOUCHED; 4];
                assert_eq!((told(call(&EIGHT, list, k, &mut [])), told(call(&EIGHT, list, k, &mut out))), (want, want));
                assert_eq!(out, [UNTOUCHED; 4]);
            }
            assert_eq!(told(call(&EIGHT, list, existing + 1, &mut [])), Err(BAD));
        }
    }
    let refusal = value(&EIGHT, &STRAY, 0).unwrap_err();
    assert_eq!(
        refusal.to_string(),
        "bitmap 5: this slice has row 5, which is not in the existence bitmap (refusal 11)"
    );
    assert_eq!(refusal.argument, None);
}

/// What each refusal 8 says, the first in the order of the arguments where two are wrong.
#[test]
fn bad_arguments() {
    let out = &mut [0; 4][..];
    let place = "place 1 of the column's list has 6, and there are 6 bitmaps, counted from 0";
    for (list, row, want) in [
        (&[][..], 9, "the column's list has length 0, and 2 is the least"),
        (&[9; 35], 9, "the column's list has length 35, and 34 is the most"),
        (&[0, 6, 7], 9, place),
        (&LOW, 8, "there is no row 8, of 8 counted from 0"),
        (&LOW, 4, "row 4 does not exist in the column"),
    ] {
        assert_eq!(said(value(&EIGHT, list, row)), want);
        assert_eq!(said(signed_value(&EIGHT, list, row)), want);
    }
    for Made { call, .. } in MADE {
        assert_eq!(said(call(&EIGHT, &[0], &[], out)), "the column's list has length 1, and 2 is the least");
        let long = "the second column's list has length 34, and 33 is the most";
        assert_eq!(said(call(&EIGHT, &LOW, &[9; 34], out)), long);
        assert_eq!(said(call(&EIGHT, &[0, 6], &[], out)), place);
        let second = "place 0 of the second column's list has 8, and there are 6 bitmaps, counted from 0";
        assert_eq!(said(call(&EIGHT, &STRAY, &[8, 1], out)), second);
        let argument = call(&EIGHT, &LOW, &[0], out).unwrap_err().argument;
        assert_eq!(argument, Some(BadArgument::SecondColumn(BadColumn::Short { numbers: 1 })));
    }
    for call in FIRST_ROWS {
        for (list, k, want) in [
            (&[][..], 9, "the column's list has length 0, and 2 is the least"),
            (&[9; 34], 9, "the column's list has length 34, and 33 is the most"),
            (&[0, 6, 7], 9, place),
            (&LOW, 5, "5 rows were asked for, and 4 exist in the column"),
            (&STRAY, u32::MAX, "4294967295 rows were asked for, and 4 exist in the column"),
        ] {
            assert_eq!(said(call(&EIGHT, list, k, out)), want);
        }
        let argument = call(&EIGHT, &LOW, 8, out).unwrap_err().argument;
        assert_eq!(argument, Some(BadArgument::FewRows { k: 8, existing: 4 }));
    }
}

/// All are refused for the index's own fault, whatever the lists are.
#[test]
fn bad_indexes() {
    let faults = [(0, 3), (1, MOST_ROWS + 1), (2, MOST_BITMAPS + 1), (5, 12), (8, 3), (8, 1)];
    let changed = faults.into_iter().chain([(11, 0x40000), (11, 0x20002), (12, 0x1E)]);
    let changed = changed.map(|(place, word)| shared::changed(place, word).to_vec());
    for index in changed.chain([LOOPED[..8].to_vec()]) {
        let fault = check(&index).unwrap_err();
        for list in [&[0, 1, 2][..], &[]] {
            assert_eq!(value(&index, list, 0), Err(fault));
            assert_eq!(signed_value(&index, list, 0), Err(fault));
            for Made { call, .. } in MADE {
                let mut out = [UNTOUCHED; 30];
                assert_eq!(call(&index, list, list, &mut out), Err(fault));
                assert_eq!(out, [UNTOUCHED; 30]);
            }
            for (call, k) in FIRST_ROWS.into_iter().flat_map(|call| [0, 1, u32::MAX].map(|k| (call, k))) {
                let mut out = [UNTOUCHED; 30];
                assert_eq!((call(&index, list, k, &mut []), call(&index, list, k, &mut out)), (Err(fault), Err(fault)));
                assert_eq!(out, [UNTOUCHED; 30]);
            }
        }
    }
    assert_eq!(told(value(&LOOPED[..8], &[], 0)), Err((1, 0, 8)));
}

//! Rewriting, between the formats and within one.

mod common;
use common::bodies::*;
use common::*;
use reference::limits::MOST_ROWS;
use reference::*;

const ANY: usize = usize::MAX;
const BAD: Refusal = Refusal { number: 8, bitmap: 0, word: 0 };

/// Every body tried, in every format, becomes the settled one of its rows.
#[test]
fn every_tail() {
    for (from, to) in [(Ewah, Wah), (Wah, Ewah), (Ewah, Ewah), (Wah, Wah)] {
        for count in 1..=130 {
            let r = count as u32;
            for rows in [rows_to_try(count, from), rows_to_try(count, to)].concat() {
                let due = settled(&rows, to);
                let need = due.len() as u64;
                for body in bodies(&rows, from) {
                    assert_eq!(rewrite(&body, r, from, to, due.len()).as_ref(), Ok(&due), "{count} {body:x?}");
                    assert_eq!(rewrite(&body, r, from, to, due.len() - 1), Err(no(9, 0, need)));
                    assert_eq!(expand(&due, r, to, ANY), Ok(plain(&rows)));
                }
            }
        }
    }
}

#[test]
fn by_hand() {
    assert_eq!(rewrite(&[], 0, Wah, Ewah, 0), Ok(vec![]));
    assert_eq!(rewrite(&[0, 1], 0, Ewah, Wah, 0), Ok(vec![]));
    assert_eq!(rewrite(&[0xC000_0002], 40, Wah, Ewah, 1), Ok(vec![5]));
    assert_eq!(rewrite(&[0x0002_0003, 0xFF], 40, Ewah, Wah, 1), Ok(vec![0xC000_0002]));
    assert_eq!(rewrite(&[0x0002_0003, 0xFF], 40, Ewah, Ewah, 1), Ok(vec![5]));
    assert_eq!(rewrite(&[0, 1], 62, Wah, Ewah, 3), Ok(vec![0x0002_0000, 0x8000_0000, 2]));
    assert_eq!(rewrite(&FIVE_64, 96, Ewah, Wah, 4), Ok(vec![0x20, 0, 4, 0]));
    assert_eq!(rewrite(&FIVE_64_WASTEFUL, 96, Ewah, Ewah, 4), Ok(FIVE_64.to_vec()));
    // The longest runs.
    let long = [vec![0x0001_FFFE; 512], vec![0x0000_0400]].concat();
    assert_eq!(rewrite(&long, MOST_ROWS, Ewah, Wah, 1), Ok(vec![0x8210_8422]));
    assert_eq!(rewrite(&[0x8210_8422], MOST_ROWS, Wah, Ewah, 513), Ok(long));
}

#[test]
fn refusals_of_a_body() {
    for to in Format::ALL {
        assert_eq!(rewrite(&[0x8000_0000], MOST_ROWS + 1, Wah, to, 0), Err(no(3, 0, 1)));
        assert_eq!(rewrite(&[0x8000_0000], 62, Wah, to, 0), Err(no(10, 0, 0)));
        assert_eq!(rewrite(&[0, 0x200], 40, Wah, to, 0), Err(no(7, 0, 1)));
        assert_eq!(rewrite(&[0x0002_0000], 40, Ewah, to, 0), Err(no(5, 0, 0)));
        assert_eq!(rewrite(&[2], 40, Ewah, to, 0), Err(no(6, 0, 1)));
        assert_eq!(rewrite(&[4], 40, Ewah, to, 0), Err(no(9, 0, 1)));
    }
}

#[test]
fn one_bitmap() {
    let index = index_in(Wah, 40, &[&[0, 0], &[0xC000_0002]]);
    assert_eq!(rewrite_bitmap(&index, 0, Ewah, 1), Ok(vec![4]));
    assert_eq!(rewrite_bitmap(&index, 1, Ewah, 1), Ok(vec![5]));
    assert_eq!(rewrite_bitmap(&index, 0, Wah, 1), Ok(vec![0x8000_0002]));
    assert_eq!(rewrite_bitmap(&index, 1, Ewah, 0), Err(no(9, 0, 1)));
    assert_eq!(rewrite_bitmap(&index, 2, Ewah, 0), Err(BAD));
    assert_eq!(rewrite_bitmap(&LOOPED, 1, Wah, 1), Ok(vec![0xE]));
    assert_eq!(rewrite_bitmap(&[3, 40, 0], 0, Ewah, 0), Err(no(2, 0, 0)));
    // Another bitmap's fault.
    let torn = index_in(Wah, 40, &[&[0, 0], &[0x8000_0000]]);
    assert_eq!(rewrite_bitmap(&torn, 0, Ewah, 0), Err(no(10, 1, 9)));
}

#[test]
fn a_whole_index() {
    let wah = [2, 4, 3, 9, 1, 10, 1, 11, 1, 0x3, 0xE, 0x8];
    assert_eq!(rewrite_index(&LOOPED, Wah, 12).as_deref(), Ok(&wah[..]));
    assert_eq!(rewrite_index(&wah, Ewah, 15).as_deref(), Ok(&LOOPED[..]));
    assert_eq!(rewrite_index(&LOOPED, Ewah, 15).as_deref(), Ok(&LOOPED[..]));
    assert_eq!(rewrite_index(&wah, Wah, 12).as_deref(), Ok(&wah[..]));
    assert_eq!(rewrite_index(&LOOPED, Wah, 11), Err(no(9, 0, 12)));
    assert_eq!(rewrite_index(&wah, Ewah, 0), Err(no(9, 0, 15)));
    // Wasteful bodies settle, and the contents go with them.
    let wasteful = index_in(Wah, 62, &[&[0, 0], &[0xC000_0001, 0xC000_0001]]);
    assert_eq!(rewrite_index(&wasteful, Wah, 9).unwrap(), index_in(Wah, 62, &[&[0x8000_0002], &[0xC000_0002]]));
    assert_eq!(rewrite_index(&wasteful, Ewah, 9).unwrap(), index_of(62, &[&[4], &[5]]));
    // No bitmaps, no rows.
    assert_eq!(rewrite_index(&[1, 7, 0], Wah, 3), Ok(vec![2, 7, 0]));
    assert_eq!(rewrite_index(&[2, 7, 0], Ewah, 2), Err(no(9, 0, 3)));
    assert_eq!(rewrite_index(&index_of(0, &[&[0, 1]]), Wah, 5), Ok(vec![2, 0, 1, 5, 0]));
    assert_eq!(rewrite_index(&[3, 7, 0], Wah, 0), Err(no(2, 0, 0)));
}

//! Every call, on an index of four rows, one of eight and others, a refusal of each number, and each limit.

#[path = "shared/calls.rs"]
mod calls;
#[path = "shared/pieces.rs"]
mod pieces;
mod shared;

use pieces::met;
use shared::{no_room, said, told, writes, BAD, LOOPED};
use zvonurel::*;

const EIGHT: [u32; 11] = [1, 8, 2, 7, 2, 9, 2, 0x20000, 0x32, 0x20000, 0xB0];
const FORTY: [u32; 3] = [0x40000, 0x1, 0x80];
const ALL: [u32; 3] = [0, 1, 2];

/// Plain words, and the body that they are written as and read from.
fn body_of(rows: u32, plain: &[u32], body: &[u32]) {
    assert_eq!(check_body(body, rows), Ok(()));
    writes(body, |out| compress(rows, plain, out));
    writes(plain, |out| expand(body, rows, out));
}

#[test]
fn bodies() {
    body_of(0, &[], &[]);
    body_of(64, &[0, 0], &[0x4]);
    body_of(64, &[!0, !0], &[0x5]);
    body_of(40, &[!0, 0xFF], &[0x5]);
    body_of(40, &[0x1, 0x80], &FORTY);
    body_of(96, &[0x20, 0, 0x1], &[0x20000, 0x20, 0x20002, 0x1]);
    body_of(2_097_152, &vec![0; 65_536], &[0x1FFFE, 0x2]);
    body_of(2_097_120, &vec![0; 65_535], &[0x1FFFE]);
    let mut most = vec![0x1FFFE; 512];
    most.push(0x400);
    body_of(1_073_741_824, &vec![0; 33_554_432], &most);
    assert_eq!(told(check_body(&most, MOST_ROWS + 1)), Err((3, 0, 1)));
    // sound, and wasteful
    writes(&[!0, 0xFF], |out| expand(&[0x20003, 0xFF], 40, out));
    writes(&[0x20, 0, 0x1], |out| expand(&[0x60000, 0x20, 0, 1], 96, out));
}

#[test]
fn one_body() {
    assert_eq!(body_row(&FORTY, 40, 39), Ok(Row { set: true, first: 32, last: 39 }));
    assert_eq!(body_row(&FORTY, 40, 38), Ok(Row { set: false, first: 32, last: 39 }));
    assert_eq!(told(body_row(&FORTY, 40, 40)), Err(BAD));
    assert_eq!(body_count(&FORTY, 40), Ok(2));
    assert_eq!(body_nth(&FORTY, 40, 1), Ok(39));
    assert_eq!(told(body_nth(&FORTY, 40, 2)), Err(BAD));
    assert_eq!(told(compress(65, &[1, 0x80], &mut [0; 9])), Err(BAD));
    assert_eq!(told(compress(40, &[1, 0x100], &mut [0; 9])), Err((7, 0, 1)));
    assert_eq!(told(check_body(&[0x40000, 1], 40)), Err((5, 0, 0)));
    assert_eq!(told(check_body(&[0x6], 40)), Err((6, 0, 0)));
    assert_eq!(told(check_body(&[0x2], 40)), Err((6, 0, 1)));
    assert_eq!(told(check_body(&[0x20003, 0x1FF], 40)), Err((7, 0, 1)));
    // a run of ones over the last segment: 40 rows and no more
    assert_eq!(check_body(&[0x5], 40), Ok(()));
    assert_eq!(body_count(&[0x5], 40), Ok(40));
    assert_eq!(body_nth(&[0x5], 40, 39), Ok(39));
    assert_eq!(told(body_nth(&[0x5], 40, 40)), Err(BAD));
    assert_eq!(body_row(&[0x5], 40, 39), Ok(Row { set: true, first: 0, last: 39 }));
    assert_eq!(told(body_row(&[0x5], 40, 40)), Err(BAD));
}

/// A dirty word is a piece, and so is each marker's run, beside others of the same value too. A marker that counts
/// nothing is none, and pad bits are no rows.
#[test]
fn pieces_of_bodies() {
    let of = |rows: u32, body: &[u32]| met(rows, |row| body_row(body, rows, row));
    assert_eq!(told(body_row(&[], 0, 0)), Err(BAD));
    assert_eq!((of(1, &[0x2]), of(1, &[0x20000, 0x1])), (vec![(0, 0)], vec![(0, 0)]));
    assert_eq!(of(40, &FORTY), [(0, 31), (32, 39)]);
    assert_eq!(of(40, &[0x5]), [(0, 39)]);
    assert_eq!(of(40, &[0x20003, 0xFF]), [(0, 31), (32, 39)]);
    assert_eq!(of(96, &[0x20000, 0x20, 0x20002, 0x1]), [(0, 31), (32, 63), (64, 95)]);
    assert_eq!(of(96, &[0x60000, 0x20, 0, 0x1]), [(0, 31), (32, 63), (64, 95)]);
    assert_eq!(of(132, &[0x60005, !0, 0, 0x1]), [(0, 63), (64, 95), (96, 127), (128, 131)]);
    assert_eq!(of(100, &[0x3, 0x3, 0x5]), [(0, 31), (32, 63), (64, 99)]);
    assert_eq!(of(96, &[0, 1, 0x4, 1, 0, 0x20000, 0x20, 0]), [(0, 63), (64, 95)]);
    assert_eq!(of(2_097_152, &[0x1FFFE, 0x2]), [(0, 2_097_119), (2_097_120, 2_097_151)]);
    let most = of(MOST_ROWS, &[&[0x1FFFF; 512][..], &[0x401]].concat());
    let (full, last) = ((1_071_628_320, 1_073_725_439), (1_073_725_440, 1_073_741_823));
    assert_eq!((most.len(), most[511], most[512]), (513, full, last));
}

#[test]
fn pieces_of_bitmaps() {
    // 96 rows: none, rows 5 and 64, all
    let index = index_of(96, &[&[0x6][..], &[0x20000, 0x20, 0x20002, 0x1], &[0x7]]);
    let of = |k: u32| met(96, |asked| row(&index, k, asked));
    assert_eq!((of(0), of(2)), (vec![(0, 95)], vec![(0, 95)]));
    assert_eq!(of(1), [(0, 31), (32, 63), (64, 95)]);
    assert_eq!(row(&index, 1, 64), Ok(Row { set: true, first: 64, last: 95 }));
    assert_eq!(row(&index, 1, 63), Ok(Row { set: false, first: 32, last: 63 }));
}

#[test]
fn one_index() {
    assert_eq!(check(&LOOPED), Ok(()));
    let part = bitmap(&LOOPED, 1).unwrap();
    assert!(std::ptr::eq(part, &LOOPED[11..13]));
    assert_eq!(bitmap_refusal(&LOOPED, 1), None);
    assert_eq!(bitmap_refusal(&LOOPED, 3).map(|refusal| refusal.numbers()), Some(BAD));
    assert_eq!(told(bitmap(&LOOPED, 3)), Err(BAD));
    assert_eq!(row(&LOOPED, 0, 1), Ok(Row { set: true, first: 0, last: 3 }));
    assert_eq!(row(&LOOPED, 0, 2), Ok(Row { set: false, first: 0, last: 3 }));
    assert_eq!(told(row(&LOOPED, 0, 4)), Err(BAD));
    assert_eq!(count(&LOOPED, 1), Ok(3));
    assert_eq!(told(count(&LOOPED, 3)), Err(BAD));
    assert_eq!(nth(&LOOPED, 1, 2), Ok(3));
    assert_eq!(told(nth(&LOOPED, 1, 3)), Err(BAD));
    writes(&[0xE], |out| expand_bitmap(&LOOPED, 1, out));
}

#[test]
fn bad_indexes() {
    let changed = |place: usize, value: u32| {
        let index = shared::changed(place, value);
        let told = check(&index).unwrap_err();
        assert!(calls::refused_by_all(&index).iter().all(|r| *r == Some(told)));
        told.numbers()
    };
    assert_eq!(told(check(&[])), Err((1, 0, 0)));
    assert_eq!(told(check(&LOOPED[..8])), Err((1, 0, 8)));
    assert_eq!(changed(0, 0), (2, 0, 0));
    assert_eq!(changed(0, 3), (2, 0, 0));
    // as WAH the first body begins with a literal that sets row 17 of 4
    assert_eq!(changed(0, 2), (7, 0, 9));
    assert_eq!(changed(1, MOST_ROWS + 1), (3, 0, 1));
    assert_eq!(changed(2, MOST_BITMAPS + 1), (3, 0, 2));
    assert_eq!(changed(5, 12), (4, 1, 5));
    assert_eq!(changed(8, 3), (4, 2, 8));
    assert_eq!(changed(8, 1), (4, 0, 14));
    assert_eq!(changed(11, 0x40000), (5, 1, 11));
    assert_eq!(changed(11, 0x20002), (6, 1, 11));
    assert_eq!(changed(12, 0x1E), (7, 1, 12));
}

/// The library has each limit where its name says: so many pass, and one more does not.
#[test]
fn limits() {
    assert_eq!(check(&[INDEX_KIND, MOST_ROWS, 0]), Ok(()));
    assert_eq!(told(check(&[INDEX_KIND, MOST_ROWS + 1, 0])), Err((3, 0, 1)));

    // bitmaps of no rows, without a word
    let end = HEAD_WORDS + ENTRY_WORDS * MOST_BITMAPS as usize;
    let mut full = vec![INDEX_KIND, 0, MOST_BITMAPS];
    full.extend([end as u32, 0].repeat(MOST_BITMAPS as usize));
    assert_eq!(check(&full), Ok(()));
    full[2] += 1;
    assert_eq!(told(check(&full)), Err((3, 0, 2)));

    assert_eq!(told(check(&vec![0; MOST_INDEX_WORDS])), Err((2, 0, 0)));
    assert_eq!(told(check(&vec![0; MOST_INDEX_WORDS + 1])), Err((3, 0, 0)));

    assert_eq!(histogram(&LOOPED, &[0; MOST_NAMED]).unwrap()[MOST_NAMED], 2);
    assert_eq!(told(histogram(&LOOPED, &[0; MOST_NAMED + 1])), Err(BAD));
    let table = [0; HISTOGRAM_COUNTS + 1];
    assert_eq!(symmetric(&LOOPED, &[0; MOST_NAMED], &table[1..], &mut [0; 1]).unwrap().words, 1);
    assert_eq!(told(symmetric(&LOOPED, &[0; MOST_NAMED + 1], &table, &mut [0; 1])), Err(BAD));

    let body = |word: u32, segments: usize| {
        let mut out = vec![0; segments + 2];
        let words = compress((WORD_BITS * segments) as u32, &vec![word; segments], &mut out).unwrap();
        (out[0], words)
    };
    let (clean, dirty) = ((MOST_CLEAN as u32) << CLEAN_SHIFT, (MOST_DIRTY as u32) << DIRTY_SHIFT);
    assert_eq!(body(0, MOST_CLEAN), (clean, 1));
    assert_eq!(body(0, MOST_CLEAN + 1), (clean, 2));
    assert_eq!(body(1, MOST_DIRTY), (dirty, MOST_DIRTY + 1));
    assert_eq!(body(1, MOST_DIRTY + 1), (dirty, MOST_DIRTY + 3));
}

#[test]
fn two_bitmaps() {
    writes(&[0x20000, 0x30], |out| and(&EIGHT, 0, 1, out));
    writes(&[0x20000, 0xB2], |out| or(&EIGHT, 0, 1, out));
    writes(&[0x20000, 0x82], |out| xor(&EIGHT, 0, 1, out));
    writes(&[0x20000, 0x02], |out| and_not(&EIGHT, 0, 1, out));
    writes(&[0x20000, 0xCD], |out| not(&EIGHT, 0, out));
    assert_eq!(told(and(&EIGHT, 0, 2, &mut [])), Err(BAD));
    assert_eq!(told(not(&EIGHT, 2, &mut [])), Err(BAD));
}

#[test]
fn lists() {
    let at_least = |t, out: &mut [u32]| threshold(&LOOPED, &ALL, t, out);
    writes(&[0x20000, 0xA], |out| at_least(2, out).map(|a| a.words));
    assert_eq!(at_least(2, &mut [0; 2]).unwrap().stretches, 1);
    assert_eq!(told(at_least(4, &mut [0; 2])), Err(BAD));
    assert_eq!(told(at_least(2, &mut [0; 1])), no_room(2));
    assert_eq!(told(threshold(&LOOPED, &[], 1, &mut [0; 2])), Err(BAD));

    let by = |table: &[u32], out: &mut [u32]| symmetric(&LOOPED, &ALL, table, out);
    writes(&[0x20000, 0x5], |out| by(&[0, 1, 0, 0], out).map(|a| a.words));
    assert_eq!(by(&[0, 1, 0, 0], &mut [0; 2]).unwrap().stretches, 1);
    assert_eq!(told(by(&[0, 1, 0], &mut [0; 2])), Err(BAD));
    assert_eq!(told(by(&[0, 2, 0, 0], &mut [0; 2])), Err(BAD));

    let mut want = [0; HISTOGRAM_COUNTS];
    want[1] = 2;
    want[2] = 2;
    assert_eq!(histogram(&LOOPED, &ALL), Ok(want));

    // 96 rows: three stretches
    let index = [1, 96, 2, 7, 1, 8, 4, 0x6, 0x20000, 0x20, 0x20002, 0x1];
    let answer = threshold(&index, &[0, 1], 1, &mut [0; 8]).unwrap();
    assert_eq!((answer.words, answer.stretches), (4, 3));
}

/// What each refusal says. The numbers at fault are changed words of LOOPED, or the arguments.
#[test]
fn sentences() {
    let changed = |place: usize, value: u32| check(&shared::changed(place, value)).unwrap_err().to_string();
    assert_eq!(
        check(&LOOPED[..8]).unwrap_err().to_string(),
        "the index has 8 words, too few for its head and its contents (refusal 1)"
    );
    assert_eq!(changed(0, 3), "word 0 is neither 1 nor 2, so this is no index (refusal 2)");
    assert_eq!(changed(1, MOST_ROWS + 1), "there are more than 1073741824 rows (refusal 3)");
    assert_eq!(changed(2, MOST_BITMAPS + 1), "there are more than 256 bitmaps (refusal 3)");
    let first = "word 3: bitmap 0 has the wrong start, or there is no bitmap and the index goes on (refusal 4)";
    assert_eq!(changed(3, 8), first);
    assert_eq!(check(&[1, 0, 0, 0]).unwrap_err().to_string(), first);
    assert_eq!(changed(4, 7), "bitmap 0, word 4: this length passes the index's end (refusal 4)");
    assert_eq!(
        check(&[1, 0, 1, 5, 0, 0]).unwrap_err().to_string(),
        "word 5: the last body ends here, and the index goes on (refusal 4)"
    );
    assert_eq!(changed(5, 12), "bitmap 1, word 5: this start is not where the words before end (refusal 4)");
    assert_eq!(changed(8, 3), "bitmap 2, word 8: this length passes the index's end (refusal 4)");
    assert_eq!(changed(8, 1), "word 14: the last body ends here, and the index goes on (refusal 4)");
    assert_eq!(changed(11, 0x40000), "bitmap 1, word 11: the marker's dirty words pass the body's end (refusal 5)");
    let count = "this word says more segments than are left, or the body ends here with segments missing";
    assert_eq!(changed(11, 0x20002), format!("bitmap 1, word 11: {count} (refusal 6)"));
    assert_eq!(changed(12, 0x1E), "bitmap 1, word 12: a bit behind the last row is set (refusal 7)");
    let room = and(&LOOPED, 0, 1, &mut []).unwrap_err().to_string();
    assert_eq!(room, "the buffer is too short for an answer of 2 words (refusal 9)");
}

/// A refusal 8 names the argument, the first in the call's order where two are wrong.
#[test]
fn bad_arguments() {
    let out = &mut [0; 4][..];
    assert_eq!(said(body_row(&FORTY, 40, 40)), "there is no row 40, of 40 counted from 0");
    let set = "set row 2, counted from 0, was asked for, and at most 2 rows are set";
    assert_eq!(said(body_nth(&FORTY, 40, 2)), set);
    assert_eq!(said(compress(65, &[1, 2], out)), "there are 2 plain words, and 65 rows need 3");
    let no_bitmap = |k: u32| format!("there is no bitmap {k}, of 3 counted from 0");
    assert_eq!(said(bitmap(&LOOPED, 3)), no_bitmap(3));
    assert_eq!(bitmap_refusal(&LOOPED, 4).unwrap(), bitmap(&LOOPED, 4).unwrap_err());
    assert_eq!(said(row(&LOOPED, 3, 4)), no_bitmap(3));
    assert_eq!(said(row(&LOOPED, 2, 4)), "there is no row 4, of 4 counted from 0");
    assert_eq!(said(count(&LOOPED, 3)), no_bitmap(3));
    assert_eq!(said(nth(&LOOPED, 3, 0)), no_bitmap(3));
    assert_eq!(said(nth(&LOOPED, 0, 2)), set);
    assert_eq!(said(expand_bitmap(&LOOPED, u32::MAX, out)), no_bitmap(u32::MAX));
    for call in [and, or, xor, and_not] {
        assert_eq!(said(call(&LOOPED, 5, 6, out)), no_bitmap(5));
        let second = "there is no bitmap 6, the second one asked for, of 3 counted from 0";
        assert_eq!(said(call(&LOOPED, 2, 6, out)), second);
    }
    assert_eq!(said(not(&LOOPED, 3, out)), no_bitmap(3));
    assert_eq!(said(histogram(&LOOPED, &[])), "the list has no number");
    assert_eq!(said(histogram(&LOOPED, &[9; 257])), "the list has 257 numbers, and 256 are the most");
    let name = "place 1 of the list has 3, and there are 3 bitmaps, counted from 0";
    assert_eq!(said(threshold(&LOOPED, &[0, 3, 4], 0, out)), name);
    assert_eq!(said(threshold(&LOOPED, &ALL, 0, out)), "the threshold is 0, and for this list it can be 1 to 3");
    assert_eq!(said(threshold(&LOOPED, &ALL, 4, out)), "the threshold is 4, and for this list it can be 1 to 3");
    assert_eq!(said(symmetric(&LOOPED, &[0, 3], &[9], out)), name);
    assert_eq!(said(symmetric(&LOOPED, &ALL, &[9; 3], out)), "the table has 3 entries, and for this list it needs 4");
    assert_eq!(said(symmetric(&LOOPED, &ALL, &[0, 1, 2, 3], out)), "entry 2 of the table is 2, neither 0 nor 1");
}

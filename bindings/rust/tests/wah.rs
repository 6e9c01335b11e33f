//! Bodies and indexes in WAH: every call, each refusal and its place, and rewriting, with words worked out by hand.

#[path = "shared/calls.rs"]
mod calls;
#[path = "shared/pieces.rs"]
mod pieces;
mod shared;

use pieces::met;
use shared::{changed, no_room, said, told, writes, BAD, LOOPED, UNTOUCHED};
use zvonurel::*;

/// `LOOPED` in WAH.
const ARCHIVE: [u32; 12] = [2, 4, 3, 9, 1, 10, 1, 11, 1, 0x3, 0xE, 0x8];
const EIGHT: [u32; 9] = [2, 8, 2, 7, 1, 8, 1, 0x32, 0xB0];
/// Rows 0 and 39 of 40.
const FORTY: [u32; 2] = [0x1, 0x100];
const ALL: [u32; 3] = [0, 1, 2];

/// The canonical bodies of the same rows in both formats, and these rewritten from each to each.
fn rewritten(rows: u32, ewah: &[u32], wah: &[u32]) {
    assert_eq!((check_body(ewah, rows), wah::check_body(wah, rows)), (Ok(()), Ok(())));
    writes(ewah, |out| to_ewah(ewah, rows, out));
    writes(wah, |out| to_wah(ewah, rows, out));
    writes(ewah, |out| wah::to_ewah(wah, rows, out));
    writes(wah, |out| wah::to_wah(wah, rows, out));
}

/// The same, and the plain words that both are written as and read from.
fn body_of(rows: u32, plain: &[u32], ewah: &[u32], wah: &[u32]) {
    rewritten(rows, ewah, wah);
    writes(wah, |out| wah::compress(rows, plain, out));
    writes(plain, |out| wah::expand(wah, rows, out));
}

#[test]
fn bodies() {
    body_of(0, &[], &[], &[]);
    body_of(9, &[0x1FF], &[0x3], &[0x1FF]);
    body_of(31, &[0x7FFF_FFFF], &[0x3], &[0x7FFF_FFFF]);
    body_of(31, &[0], &[0x2], &[0]);
    // the last row alone in its segment: as those before it, and not
    body_of(32, &[!0], &[0x3], &[0xC000_0002]);
    body_of(32, &[0x7FFF_FFFF], &[0x20000, 0x7FFF_FFFF], &[0x7FFF_FFFF, 0]);
    body_of(62, &[0, 0], &[0x4], &[0x8000_0002]);
    body_of(62, &[!0, 0x3FFF_FFFF], &[0x5], &[0xC000_0002]);
    body_of(40, &[!0, 0xFF], &[0x5], &[0xC000_0002]);
    body_of(40, &[0x1, 0x80], &[0x40000, 0x1, 0x80], &FORTY);
    body_of(63, &[0, 0], &[0x4], &[0x8000_0003]);
    // rows 31 to 92
    body_of(93, &[0x8000_0000, !0, 0x1FFF_FFFF], &[0x20000, 0x8000_0000, 0x5], &[0, 0xC000_0002]);
    // rows 5 and 64
    body_of(96, &[0x20, 0, 0x1], &[0x20000, 0x20, 0x20002, 0x1], &[0x20, 0, 0x4, 0]);
    rewritten(2_097_152, &[0x1FFFE, 0x2], &[0x8001_0843]);
    let mut most = vec![0x1FFFE; 512];
    most.push(0x400);
    body_of(MOST_ROWS, &vec![0; 33_554_432], &most, &[0x8210_8422]);
    assert_eq!(told(wah::check_body(&[0x8210_8422], MOST_ROWS + 1)), Err((3, 0, 1)));
}

/// What is sound and wasteful is rewritten to the form with the fewest words.
#[test]
fn wasteful() {
    writes(&[0x8000_0002], |out| wah::to_wah(&[0x8000_0001, 0x8000_0001], 62, out));
    writes(&[0x7FFF_FFFF], |out| wah::to_wah(&[0xC000_0001], 31, out));
    writes(&[0x1FF], |out| wah::to_wah(&[0xC000_0001], 9, out));
    // a clean literal is one with the fill behind it, and with the one before it
    writes(&[0x8000_0003], |out| wah::to_wah(&[0, 0x8000_0002], 93, out));
    writes(&[0x8000_0003], |out| wah::to_wah(&[0x8000_0002, 0], 93, out));
    writes(&[0xC000_0002], |out| wah::to_wah(&[0x7FFF_FFFF, 0x1FF], 40, out));
    writes(&[0x5], |out| wah::to_ewah(&[0x7FFF_FFFF, 0x1FF], 40, out));
    writes(&[0xC000_0002], |out| to_wah(&[0x20003, 0xFF], 40, out));
    writes(&[0x5], |out| to_ewah(&[0x20003, 0xFF], 40, out));
}

#[test]
fn one_body() {
    assert_eq!(wah::body_row(&FORTY, 40, 39), Ok(Row { set: true, first: 31, last: 39 }));
    assert_eq!(wah::body_row(&FORTY, 40, 38), Ok(Row { set: false, first: 31, last: 39 }));
    assert_eq!(said(wah::body_row(&FORTY, 40, 40)), "there is no row 40, of 40 counted from 0");
    assert_eq!(wah::body_count(&FORTY, 40), Ok(2));
    assert_eq!(wah::body_nth(&FORTY, 40, 1), Ok(39));
    let set = "set row 2, counted from 0, was asked for, and at most 2 rows are set";
    assert_eq!(said(wah::body_nth(&FORTY, 40, 2)), set);
    let plain = "there are 2 plain words, and 65 rows need 3";
    assert_eq!(said(wah::compress(65, &[1, 0x80], &mut [0; 9])), plain);
    assert_eq!(told(wah::compress(40, &[1, 0x100], &mut [0; 9])), Err((7, 0, 1)));
    assert_eq!(told(wah::compress(MOST_ROWS + 1, &[], &mut [0; 9])), Err((3, 0, 1)));
    // a fill of ones over the last segment: 40 rows and no more
    assert_eq!(wah::body_count(&[0xC000_0002], 40), Ok(40));
    assert_eq!(wah::body_nth(&[0xC000_0002], 40, 39), Ok(39));
    assert_eq!(told(wah::body_nth(&[0xC000_0002], 40, 40)), Err(BAD));
    assert_eq!(wah::body_row(&[0xC000_0002], 40, 39), Ok(Row { set: true, first: 0, last: 39 }));
    assert_eq!(told(wah::body_row(&[0xC000_0002], 40, 40)), Err(BAD));
}

/// Each word is a piece, a clean literal beside a fill of the same value too, and pad bits are no rows.
#[test]
fn pieces_of_bodies() {
    let of = |rows: u32, body: &[u32]| met(rows, |row| wah::body_row(body, rows, row));
    assert_eq!(told(wah::body_row(&[], 0, 0)), Err(BAD));
    assert_eq!((of(1, &[0x1]), of(1, &[0x8000_0001])), (vec![(0, 0)], vec![(0, 0)]));
    assert_eq!(of(40, &FORTY), [(0, 30), (31, 39)]);
    assert_eq!(of(40, &[0xC000_0002]), [(0, 39)]);
    assert_eq!(of(40, &[0x7FFF_FFFF, 0x1FF]), [(0, 30), (31, 39)]);
    assert_eq!(of(62, &[0x8000_0001, 0x8000_0001]), [(0, 30), (31, 61)]);
    assert_eq!(of(92, &[0, 0x8000_0002]), [(0, 30), (31, 91)]);
    assert_eq!(of(96, &[0xC000_0002, 0x7FFF_FFFF, 0x5]), [(0, 61), (62, 92), (93, 95)]);
    assert_eq!(of(2_097_152, &[0x8001_0843]), [(0, 2_097_151)]);
    assert_eq!(of(MOST_ROWS, &[0xC210_8421, 0x0]), [(0, 1_073_741_822), (1_073_741_823, 1_073_741_823)]);
}

#[test]
fn pieces_of_bitmaps() {
    // 96 rows: none, rows 5 and 64, all
    let index = wah::index_of(96, &[&[0x8000_0004][..], &[0x20, 0x8000_0001, 0x4, 0], &[0xC000_0004]]);
    let of = |k: u32| met(96, |asked| row(&index, k, asked));
    assert_eq!((of(0), of(2)), (vec![(0, 95)], vec![(0, 95)]));
    assert_eq!(of(1), [(0, 30), (31, 61), (62, 92), (93, 95)]);
    assert_eq!(row(&index, 1, 64), Ok(Row { set: true, first: 62, last: 92 }));
    assert_eq!(row(&index, 1, 61), Ok(Row { set: false, first: 31, last: 61 }));
}

/// Every call on a body alone is refused for the body's own fault, before its argument and its buffer are looked at.
fn faulty(body: &[u32], rows: u32) -> (u32, u64) {
    let fault = wah::check_body(body, rows).unwrap_err();
    assert_eq!(wah::body_row(body, rows, rows), Err(fault));
    assert_eq!(wah::body_count(body, rows), Err(fault));
    assert_eq!(wah::body_nth(body, rows, rows), Err(fault));
    assert_eq!((wah::set_rows(body, rows).err(), wah::spells(body, rows).err()), (Some(fault), Some(fault)));
    for call in [wah::expand, wah::to_ewah, wah::to_wah] {
        let mut out = [UNTOUCHED; 9];
        assert_eq!((call(body, rows, &mut []), call(body, rows, &mut out)), (Err(fault), Err(fault)));
        assert_eq!(out, [UNTOUCHED; 9]);
    }
    assert_eq!((fault.bitmap, fault.argument), (0, None));
    (fault.number, fault.word)
}

/// A fill of no segments is 10, whether any are left or not; a word past the segments left is 6; then a pad bit is 7.
#[test]
fn corners() {
    assert_eq!(faulty(&FORTY, MOST_ROWS + 1), (3, 1));
    assert_eq!(faulty(&[0x8000_0000], 62), (10, 0));
    assert_eq!(faulty(&[0x8000_0000], 0), (10, 0));
    assert_eq!(faulty(&[0xC000_0000], 62), (10, 0));
    assert_eq!(faulty(&[0x8000_0002, 0x8000_0000], 62), (10, 1));
    assert_eq!(faulty(&[0x8000_0002, 0x8000_0000], 124), (10, 1));
    assert_eq!(faulty(&[0], 0), (6, 0));
    assert_eq!(faulty(&[0x8000_0002, 0x7FFF_FFFF], 62), (6, 1));
    assert_eq!(faulty(&[0x8000_0002, 0x7FFF_FFFF], 40), (6, 1));
    assert_eq!(faulty(&[0x8000_0003], 62), (6, 0));
    assert_eq!(faulty(&[0x1, 0xC000_0002], 62), (6, 1));
    assert_eq!(faulty(&[0xFFFF_FFFF], MOST_ROWS), (6, 0));
    assert_eq!(faulty(&[0x7FFF_FFFF, 0x7FFF_FFFF], 63), (6, 2));
    assert_eq!(faulty(&[], 1), (6, 0));
    assert_eq!(faulty(&[0x7FFF_FFFF, 0x7FFF_FFFF], 40), (7, 1));
    assert_eq!(faulty(&[0x7FFF_FFFF, 0x200], 40), (7, 1));

    assert_eq!(wah::check_body(&[0x7FFF_FFFF, 0x7FFF_FFFF], 62), Ok(()));
    assert_eq!(wah::check_body(&[0x7FFF_FFFF, 0x1FF], 40), Ok(()));
    assert_eq!(wah::check_body(&[], 0), Ok(()));
    // from EWAH it is that body's faults
    for call in [to_ewah, to_wah] {
        assert_eq!(told(call(&[0x40000, 1], 40, &mut [])), Err((5, 0, 0)));
        assert_eq!(told(call(&[0x5], MOST_ROWS + 1, &mut [])), Err((3, 0, 1)));
    }
}

#[test]
fn one_index() {
    assert_eq!(check(&ARCHIVE), Ok(()));
    assert_eq!((Format::of_index(&ARCHIVE), Format::of_index(&LOOPED)), (Some(Format::Wah), Some(Format::Ewah)));
    assert_eq!((Format::of_index(&changed(0, 3)), Format::of_index(&[])), (None, None));
    assert!(std::ptr::eq(bitmap(&ARCHIVE, 1).unwrap(), &ARCHIVE[10..11]));
    assert_eq!(bitmap_refusal(&ARCHIVE, 1), None);
    assert_eq!(told(bitmap(&ARCHIVE, 3)), Err(BAD));
    assert_eq!(row(&ARCHIVE, 0, 1), Ok(Row { set: true, first: 0, last: 3 }));
    assert_eq!(row(&ARCHIVE, 0, 2), Ok(Row { set: false, first: 0, last: 3 }));
    assert_eq!(told(row(&ARCHIVE, 0, 4)), Err(BAD));
    assert_eq!((count(&ARCHIVE, 1), nth(&ARCHIVE, 1, 2)), (Ok(3), Ok(3)));
    assert_eq!(told(nth(&ARCHIVE, 1, 3)), Err(BAD));
    writes(&[0xE], |out| expand_bitmap(&ARCHIVE, 1, out));
}

/// An answer is in WAH, as the index is.
#[test]
fn answers() {
    writes(&[0x30], |out| and(&EIGHT, 0, 1, out));
    writes(&[0xB2], |out| or(&EIGHT, 0, 1, out));
    writes(&[0x82], |out| xor(&EIGHT, 0, 1, out));
    writes(&[0x02], |out| and_not(&EIGHT, 0, 1, out));
    writes(&[0xCD], |out| not(&EIGHT, 0, out));
    writes(&[0xA], |out| threshold(&ARCHIVE, &ALL, 2, out).map(|a| a.words));
    writes(&[0x5], |out| symmetric(&ARCHIVE, &ALL, &[0, 1, 0, 0], out).map(|a| a.words));
    assert_eq!(histogram(&ARCHIVE, &ALL).unwrap()[..4], [0, 2, 2, 0]);
    assert_eq!(told(threshold(&ARCHIVE, &ALL, 4, &mut [])), Err(BAD));

    // 124 rows: 0 to 61, none, and row 62; the pieces end at segments 1 and 3, at 3, and at each one
    let index = wah::index_of(124, &[&[0xC000_0002, 0x8000_0002][..], &[0x8000_0004], &[0, 0, 1, 0]]);
    let stretches = |list: &[u32], t| {
        let mut out = [0; 4];
        let answer = threshold(&index, list, t, &mut out).unwrap();
        (out[..answer.words].to_vec(), answer.stretches)
    };
    assert_eq!(stretches(&ALL, 1), (vec![0xC000_0002, 0x1, 0], 4));
    assert_eq!(stretches(&ALL, 3), (vec![0x8000_0004], 4));
    assert_eq!(stretches(&[0, 1], 1), (vec![0xC000_0002, 0x8000_0002], 2));
}

/// What is made of columns is an index in WAH.
#[test]
fn columns() {
    // rows 0 to 3 exist and have 1, 2, 3 and 0; then rows 1 to 4 have 1, 1, 0 and 1; bitmap 5 has rows 0 and 5
    let index = wah::index_of(8, &[[0x0F], [0x05], [0x06], [0x1E], [0x16], [0x21]]);
    assert_eq!(value(&index, &[0, 1, 2], 2), Ok(3));
    assert_eq!(told(value(&index, &[0, 5], 1)), Err((11, 5, 5)));
    let want = [2, 8, 4, 11, 1, 12, 1, 13, 1, 14, 1, 0x0E, 0x02, 0x02, 0x04];
    assert_eq!(want.len(), Format::Wah.most_sum_words(8, 2));
    writes(&want, |out| sum(&index, &[0, 1, 2], &[3, 4], out));
    assert_eq!(value(&want, &[0, 1, 2, 3], 2), Ok(4));
    // slice 0 is empty, and is there; and so are the bitmaps of no rows
    let twice = [2, 8, 4, 11, 1, 12, 1, 13, 1, 14, 1, 0x0F, 0x00, 0x05, 0x06];
    writes(&twice, |out| sum(&index, &[0, 1, 2], &[0, 1, 2], out));
    writes(&[2, 0, 3, 9, 0, 9, 0, 9, 0], |out| sum(&[2, 0, 1, 5, 0], &[0, 0], &[0, 0], out));

    // at rows 1 to 3 the differences are 1 - 2, 1 - 3 and 0 - 0
    let want = [2, 8, 4, 11, 1, 12, 1, 13, 1, 14, 1, 0x0E, 0x02, 0x06, 0x06];
    writes(&want, |out| signed_difference(&index, &[3, 4], &[0, 1, 2], out));
    assert_eq!([1, 2, 3].map(|row| signed_value(&want, &[0, 1, 2, 3], row)), [Ok(-1), Ok(-2), Ok(0)]);
    let want = [2, 8, 3, 9, 1, 10, 1, 11, 1, 0x0E, 0x06, 0x00];
    writes(&want, |out| smaller(&index, &[0, 1, 2], &[3, 4], out));
    let want = [2, 8, 3, 9, 1, 10, 1, 11, 1, 0x0E, 0x02, 0x04];
    writes(&want, |out| difference_or_zero(&index, &[0, 1, 2], &[3, 4], out));
}

/// The first rows of a column are a body in WAH.
#[test]
fn first_rows() {
    let index = wah::index_of(8, &[[0x0F], [0x05], [0x06], [0x1E], [0x16], [0x21]]);
    for (k, (most, least)) in (0..).zip([(0, 0), (0x4, 0x8), (0x6, 0x9), (0x7, 0xB), (0xF, 0xF)]) {
        writes(&[most], |out| largest(&index, &[0, 1, 2], k, out));
        writes(&[least], |out| smallest(&index, &[0, 1, 2], k, out));
    }
    // rows 31 to 39 of 40 have 1, and the others 0
    let tail = wah::index_of(40, &[&[0xC000_0002][..], &[0, 0x1FF]]);
    for (k, most, least) in [
        (0, &[0x8000_0002][..], &[0x8000_0002][..]),
        (8, &[0, 0xFF], &[0xFF, 0]),
        (9, &[0, 0x1FF], &[0x1FF, 0]),
        (31, &[0x3F_FFFF, 0x1FF], &[0x7FFF_FFFF, 0]),
        (32, &[0x7F_FFFF, 0x1FF], &[0x7FFF_FFFF, 1]),
        (40, &[0xC000_0002], &[0xC000_0002]),
    ] {
        writes(most, |out| largest(&tail, &[0, 1], k, out));
        writes(least, |out| smallest(&tail, &[0, 1], k, out));
    }
    for call in [largest, smallest] {
        assert_eq!(said(call(&tail, &[0, 1], 41, &mut [])), "41 rows were asked for, and 40 exist in the column");
        assert_eq!(told(call(&index, &[0, 5], 5, &mut [])), Err(BAD));
        assert_eq!(told(call(&index, &[0, 5], 4, &mut [])), Err((11, 5, 5)));
        assert_eq!(told(call(&index, &[0, 1], 4, &mut [])), no_room(1));
        writes(&[], |out| call(&[2, 0, 1, 5, 0], &[0, 0], 0, out));
    }
}

#[test]
fn indexes_rewritten() {
    for index in [&LOOPED[..], &ARCHIVE] {
        writes(&[0x20000, 0xE], |out| bitmap_to_ewah(index, 1, out));
        writes(&[0xE], |out| bitmap_to_wah(index, 1, out));
        writes(&LOOPED, |out| index_to_ewah(index, out));
        writes(&ARCHIVE, |out| index_to_wah(index, out));
        for call in [bitmap_to_ewah, bitmap_to_wah] {
            assert_eq!(said(call(index, 3, &mut [])), "there is no bitmap 3, of 3 counted from 0");
        }
    }
    assert_eq!(told(index_to_ewah(&ARCHIVE, &mut [])), no_room(15));
    // 62 rows: all clear as two fills, all set as two literals
    let cut = wah::index_of(62, &[[0x8000_0001; 2], [0x7FFF_FFFF; 2]]);
    let (ewah, wah) = (index_of(62, &[[0x4], [0x5]]), wah::index_of(62, &[[0x8000_0002], [0xC000_0002]]));
    writes(&wah, |out| index_to_wah(&cut, out));
    writes(&ewah, |out| index_to_ewah(&cut, out));
    writes(&wah, |out| index_to_wah(&ewah, out));
    writes(&[2, 7, 0], |out| index_to_wah(&[1, 7, 0], out));
    writes(&[1, 7, 0], |out| index_to_ewah(&[2, 7, 0], out));
}

/// Each fault of an index, by one word of it changed, is what every call says.
#[test]
fn bad_indexes() {
    let fault = |place: usize, value: u32| {
        let mut index = ARCHIVE;
        index[place] = value;
        let told = check(&index).unwrap_err();
        assert!(calls::refused_by_all(&index).iter().all(|r| *r == Some(told)));
        told.numbers()
    };
    assert_eq!(told(check(&ARCHIVE[..8])), Err((1, 0, 8)));
    assert_eq!(fault(0, 3), (2, 0, 0));
    // as EWAH the second body is a marker of seven clean segments
    assert_eq!(fault(0, 1), (6, 1, 10));
    assert_eq!(fault(1, MOST_ROWS + 1), (3, 0, 1));
    assert_eq!(fault(2, MOST_BITMAPS + 1), (3, 0, 2));
    assert_eq!(fault(5, 11), (4, 1, 5));
    assert_eq!(fault(8, 2), (4, 2, 8));
    assert_eq!(fault(8, 0), (4, 0, 11));
    assert_eq!(fault(10, 0x8000_0000), (10, 1, 10));
    assert_eq!(fault(10, 0x8000_0002), (6, 1, 10));
    assert_eq!(fault(10, 0x1E), (7, 1, 10));
    // 32 rows: a second segment, which the first body has not
    assert_eq!(fault(1, 32), (6, 0, 10));
}

#[test]
fn sentences() {
    let refusal = |word: u32| {
        let mut index = ARCHIVE;
        index[10] = word;
        check(&index).unwrap_err().to_string()
    };
    assert_eq!(refusal(0x8000_0000), "bitmap 1, word 10: the fill counts no segments (refusal 10)");
    let count = "this word says more segments than are left, or the body ends here with segments missing";
    assert_eq!(refusal(0x8000_0002), format!("bitmap 1, word 10: {count} (refusal 6)"));
    assert_eq!(refusal(0x1E), "bitmap 1, word 10: a bit behind the last row is set (refusal 7)");
}

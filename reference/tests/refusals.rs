//! Every refusal at a small case, and the order among them.

mod common;
use common::*;
use reference::limits::*;
use reference::*;

const ANY: usize = usize::MAX;

#[test]
fn one_too_short() {
    assert_eq!(check(&[]), Err(no(1, 0, 0)));
    assert_eq!(check(&[7]), Err(no(1, 0, 1)));
    assert_eq!(check(&[1, 4]), Err(no(1, 0, 2)));
    assert_eq!(check(&[1, 4, 1]), Err(no(1, 0, 3)));
    assert_eq!(check(&[1, 4, 2, 7, 0, 7]), Err(no(1, 0, 6)));
    assert_eq!(check(&[1, 4, 0]), Ok(()));
}

#[test]
fn two_wrong_first_word() {
    assert_eq!(check(&[0, MOST_ROWS + 1, MOST_BITMAPS + 1]), Err(no(2, 0, 0)));
    assert_eq!(check(&[3, 4, 0]), Err(no(2, 0, 0)));
    assert_eq!(check(&[1, 4, 0]), Ok(()));
    assert_eq!(check(&[2, 4, 0]), Ok(()));
}

#[test]
fn three_too_much() {
    assert_eq!(check(&[1, MOST_ROWS + 1, MOST_BITMAPS + 1]), Err(no(3, 0, 1)));
    assert_eq!(check(&[1, u32::MAX, 0]), Err(no(3, 0, 1)));
    assert_eq!(check(&[1, 4, MOST_BITMAPS + 1]), Err(no(3, 0, 2)));
    assert_eq!(check(&[1, 4, u32::MAX]), Err(no(3, 0, 2)));
    assert_eq!(check(&[1, 4, MOST_BITMAPS]), Err(no(1, 0, 3)));
    assert_eq!(check(&vec![0; MOST_INDEX_WORDS + 1]), Err(no(3, 0, 0)));
    assert_eq!(check(&vec![0; MOST_INDEX_WORDS]), Err(no(2, 0, 0)));
    let full = index_of(0, &[&[][..]; MOST_BITMAPS as usize]);
    assert_eq!(check(&full), Ok(()));
}

#[test]
fn four_contents() {
    let good = index_of(64, &[&[4], &[5]]);
    assert_eq!(good, [1, 64, 2, 7, 1, 8, 1, 4, 5]);
    let with = |place: usize, word: u32| {
        let mut index = good.clone();
        index[place] = word;
        check(&index)
    };
    assert_eq!(with(3, 6), Err(no(4, 0, 3)));
    assert_eq!(with(3, u32::MAX), Err(no(4, 0, 3)));
    assert_eq!(with(4, 3), Err(no(4, 0, 4)));
    assert_eq!(with(4, u32::MAX), Err(no(4, 0, 4)));
    // A first length of 2 fits, so the second start is the fault.
    assert_eq!(with(4, 2), Err(no(4, 1, 5)));
    assert_eq!(with(5, 7), Err(no(4, 1, 5)));
    assert_eq!(with(6, 2), Err(no(4, 1, 6)));
    assert_eq!(with(6, 0), Err(no(4, 0, 8)));
    // Start before length; entry 0 before entry 1; contents before bodies.
    assert_eq!(check(&[1, 64, 1, 6, 9, 4]), Err(no(4, 0, 3)));
    assert_eq!(check(&[1, 64, 2, 7, 9, 0, 9, 4, 5]), Err(no(4, 0, 4)));
    assert_eq!(check(&[1, 64, 1, 5, 1, 2, 2]), Err(no(4, 0, 6)));
    // Words after the contents where there are no bitmaps.
    assert_eq!(check(&[1, 64, 0, 4]), Err(no(4, 0, 3)));
}

#[test]
fn five_dirty_words_past_the_end() {
    assert_eq!(check_body(&[0x0002_0000], 32, Ewah), Err(no(5, 0, 0)));
    assert_eq!(check_body(&[0x0000_0002, 0x0004_0000, 1], 96, Ewah), Err(no(5, 0, 1)));
    let index = index_of(32, &[&[2], &[0x0002_0000]]);
    assert_eq!(check(&index), Err(no(5, 1, 8)));
    // The next body's words are not this one's.
    let index = index_of(32, &[&[0x0002_0000], &[2]]);
    assert_eq!(check(&index), Err(no(5, 0, 7)));
}

#[test]
fn six_segments() {
    assert_eq!(check_body(&[6], 64, Ewah), Err(no(6, 0, 0)));
    assert_eq!(check_body(&[4, 2], 64, Ewah), Err(no(6, 0, 1)));
    assert_eq!(check_body(&[0x0002_0004, 1], 64, Ewah), Err(no(6, 0, 0)));
    assert_eq!(check_body(&[2], 64, Ewah), Err(no(6, 0, 1)));
    assert_eq!(check_body(&[], 1, Ewah), Err(no(6, 0, 0)));
    assert_eq!(check_body(&[0x0002_0000, 1], 33, Ewah), Err(no(6, 0, 2)));
    assert_eq!(check_body(&[2], 0, Ewah), Err(no(6, 0, 0)));
    assert_eq!(check(&index_of(64, &[&[4], &[2]])), Err(no(6, 1, 9)));
    assert_eq!(check(&index_of(64, &[&[2], &[4]])), Err(no(6, 0, 8)));
    assert_eq!(check(&index_of(64, &[&[4], &[6]])), Err(no(6, 1, 8)));
    assert_eq!(check(&index_of(64, &[&[4], &[]])), Err(no(6, 1, 8)));
}

#[test]
fn seven_pads() {
    assert_eq!(check_body(&[0x0002_0003, 0x1FF], 40, Ewah), Err(no(7, 0, 1)));
    assert_eq!(check_body(&[0x0002_0003, u32::MAX], 40, Ewah), Err(no(7, 0, 1)));
    assert_eq!(check_body(&[0x0004_0000, 1, 0x100], 40, Ewah), Err(no(7, 0, 2)));
    assert_eq!(check_body(&[0x0004_0000, u32::MAX, 0xFF], 40, Ewah), Ok(()));
    assert_eq!(check_body(&[0x0002_0000, u32::MAX], 31, Ewah), Err(no(7, 0, 1)));
    assert_eq!(check_body(&[0x0002_0000, u32::MAX], 32, Ewah), Ok(()));
    assert_eq!(check(&index_of(40, &[&[4], &[0x0002_0002, 0x100]])), Err(no(7, 1, 9)));
    assert_eq!(compress(40, &[0, 0x100], Ewah, 0), Err(no(7, 0, 1)));
    assert_eq!(compress(40, &[u32::MAX, u32::MAX], Ewah, 0), Err(no(7, 0, 1)));
}

#[test]
fn ones_over_pads_are_sound() {
    for (body, rows) in [(&[5][..], 40), (&[2, 3], 40), (&[3], 31), (&[3], 1), (&[0, 3, 1, 3, 0, 1], 33)] {
        assert_eq!(check_body(body, rows, Ewah), Ok(()), "{body:x?}");
        // A segment more is one too many.
        assert_eq!(check_body(&[body, &[3]].concat(), rows, Ewah), Err(no(6, 0, body.len() as u64)));
    }
    assert_eq!(check_body(&[7], 40, Ewah), Err(no(6, 0, 0)));
    assert_eq!(check_body(&[3, 5], 40, Ewah), Err(no(6, 0, 1)));
    assert_eq!(check_body(&[3], 40, Ewah), Err(no(6, 0, 1)));
    assert_eq!(check_body(&[3], 0, Ewah), Err(no(6, 0, 0)));
    assert_eq!(check(&index_of(40, &[&[4], &[5]])), Ok(()));
    assert_eq!(check(&index_of(40, &[&[5], &[7]])), Err(no(6, 1, 8)));
}

#[test]
fn wasteful_is_sound() {
    // Idle markers anywhere, also with clean value 1 and in zero rows.
    assert_eq!(check_body(&[0, 1, 4, 0, 1], 64, Ewah), Ok(()));
    assert_eq!(check_body(&[1, 4, 1], 40, Ewah), Ok(()));
    assert_eq!(check_body(&[0], 0, Ewah), Ok(()));
    assert_eq!(check_body(&[1, 0], 0, Ewah), Ok(()));
    // Clean dirty words, split runs.
    assert_eq!(check_body(&[0x0004_0000, 0, u32::MAX], 64, Ewah), Ok(()));
    assert_eq!(check_body(&[2, 2], 64, Ewah), Ok(()));
    assert_eq!(body_count(&[3, 0x0002_0000, u32::MAX], 64, Ewah), Ok(64));
}

#[test]
fn order_at_a_marker() {
    // 5 and 6 at once; then 6 alone; a marker before its dirty words.
    assert_eq!(check_body(&[0x0004_0002, 1], 64, Ewah), Err(no(5, 0, 0)));
    assert_eq!(check_body(&[0x0002_0005, 1], 40, Ewah), Err(no(6, 0, 0)));
    assert_eq!(check_body(&[0x0002_0005, 0x100], 40, Ewah), Err(no(6, 0, 0)));
    assert_eq!(check_body(&[7], 40, Ewah), Err(no(6, 0, 0)));
    // A pad bit in front of a later marker's fault.
    assert_eq!(check_body(&[0x0002_0002, 0x100, 2], 40, Ewah), Err(no(7, 0, 1)));
    // Bitmap 0's fault before bitmap 1's.
    assert_eq!(check(&index_of(40, &[&[2], &[0x0002_0000]])), Err(no(6, 0, 8)));
}

#[test]
fn eight_bad_arguments() {
    let bad = no(8, 0, 0);
    let list = [0, 1, 2];
    assert_eq!(bitmap(&LOOPED, 3), Err(bad));
    assert_eq!(row(&LOOPED, 3, 0), Err(bad));
    assert_eq!(row(&LOOPED, 0, 4), Err(bad));
    assert_eq!(row(&LOOPED, 0, u32::MAX), Err(bad));
    assert_eq!(count(&LOOPED, 3), Err(bad));
    assert_eq!(nth(&LOOPED, 3, 0), Err(bad));
    assert_eq!(nth(&LOOPED, 2, 1), Err(bad));
    assert_eq!(nth(&LOOPED, 2, u32::MAX), Err(bad));
    assert_eq!(expand_bitmap(&LOOPED, 3, 0), Err(bad));
    for ask in [and, or, xor, and_not] {
        assert_eq!(ask(&LOOPED, 0, 3, 0), Err(bad));
        assert_eq!(ask(&LOOPED, 3, 0, 0), Err(bad));
    }
    assert_eq!(not(&LOOPED, 3, 0), Err(bad));
    for wrong in [&[][..], &[3], &[0, 3], &[0; MOST_NAMED + 1]] {
        assert_eq!(threshold(&LOOPED, wrong, 1, 0), Err(bad));
        let table = vec![0; wrong.len() + 1];
        assert_eq!(symmetric(&LOOPED, wrong, &table, 0), Err(bad));
        assert_eq!(histogram(&LOOPED, wrong), Err(bad));
    }
    for t in [0, 4, u32::MAX] {
        assert_eq!(threshold(&LOOPED, &list, t, 0), Err(bad));
    }
    for table in [&[0, 1, 1][..], &[0, 1, 1, 1, 1], &[], &[0, 1, 2, 1], &[u32::MAX, 0, 0, 0]] {
        assert_eq!(symmetric(&LOOPED, &list, table, 0), Err(bad));
    }
    assert_eq!(body_row(&[4], 64, Ewah, 64), Err(bad));
    assert_eq!(body_nth(&[4], 64, Ewah, 0), Err(bad));
    assert_eq!(body_row(&[], 0, Ewah, 0), Err(bad));
    assert_eq!(compress(40, &[0], Ewah, 0), Err(bad));
    assert_eq!(compress(40, &[0, 0x100, 0], Ewah, 0), Err(bad));
    assert_eq!(compress(0, &[0], Ewah, 0), Err(bad));
    // No bitmaps: every list is bad.
    assert_eq!(threshold(&[1, 4, 0], &[0], 1, ANY), Err(bad));
    assert_eq!(histogram(&[1, 4, 0], &[]), Err(bad));
}

#[test]
fn nine_no_room() {
    assert_eq!(and(&LOOPED, 0, 1, 1), Err(no(9, 0, 2)));
    assert_eq!(and(&LOOPED, 0, 2, 0), Err(no(9, 0, 1)));
    assert_eq!(and(&LOOPED, 0, 2, 1), Ok(vec![2]));
    assert_eq!(or(&LOOPED, 0, 2, 1), Err(no(9, 0, 2)));
    assert_eq!(or(&LOOPED, 0, 1, 0), Err(no(9, 0, 1)));
    assert_eq!(or(&LOOPED, 0, 1, 1), Ok(vec![3]));
    assert_eq!(xor(&LOOPED, 0, 1, 1), Err(no(9, 0, 2)));
    assert_eq!(and_not(&LOOPED, 0, 1, 1), Err(no(9, 0, 2)));
    assert_eq!(not(&LOOPED, 0, 1), Err(no(9, 0, 2)));
    assert_eq!(symmetric(&LOOPED, &[0], &[1, 1], 0), Err(no(9, 0, 1)));
    assert_eq!(symmetric(&LOOPED, &[0], &[1, 0], 0), Err(no(9, 0, 2)));
    assert_eq!(expand_bitmap(&LOOPED, 0, 0), Err(no(9, 0, 1)));
    assert_eq!(expand(&[4], 64, Ewah, 1), Err(no(9, 0, 2)));
    assert_eq!(compress(64, &[0, 0], Ewah, 0), Err(no(9, 0, 1)));
    // Zero rows need no room at all.
    let empty = index_of(0, &[&[]]);
    assert_eq!(not(&empty, 0, 0), Ok(vec![]));
    assert_eq!(threshold(&empty, &[0], 1, 0), Ok(Answer { words: vec![], stretches: 0 }));
}

#[test]
fn index_before_arguments() {
    let mut index = LOOPED.to_vec();
    index[14] = 0x10;
    let fault = no(7, 2, 14);
    assert_eq!(check(&index), Err(fault));
    assert_eq!(bitmap(&index, 0), Err(fault));
    assert_eq!(bitmap(&index, 9), Err(fault));
    assert_eq!(row(&index, 0, 9), Err(fault));
    assert_eq!(count(&index, 0), Err(fault));
    assert_eq!(nth(&index, 0, 9), Err(fault));
    assert_eq!(expand_bitmap(&index, 0, 0), Err(fault));
    for ask in [and, or, xor, and_not] {
        assert_eq!(ask(&index, 0, 1, ANY), Err(fault));
    }
    assert_eq!(not(&index, 0, ANY), Err(fault));
    assert_eq!(threshold(&index, &[0], 0, 0), Err(fault));
    assert_eq!(symmetric(&index, &[0], &[], 0), Err(fault));
    assert_eq!(histogram(&index, &[]), Err(fault));
}

#[test]
fn parts_of_the_index() {
    assert_eq!(bitmap(&LOOPED, 0), Ok(9..11));
    assert_eq!(bitmap(&LOOPED, 1), Ok(11..13));
    assert_eq!(bitmap(&LOOPED, 2), Ok(13..15));
    assert_eq!(bitmap(&index_of(0, &[&[], &[0]]), 0), Ok(7..7));
    assert_eq!(row(&LOOPED, 1, 0), Ok(Row { set: false, first: 0, last: 3 }));
    assert_eq!(row(&LOOPED, 1, 3), Ok(Row { set: true, first: 0, last: 3 }));
    assert_eq!(count(&LOOPED, 1), Ok(3));
    assert_eq!(nth(&LOOPED, 1, 2), Ok(3));
    assert_eq!(expand_bitmap(&LOOPED, 1, 1), Ok(vec![0xE]));
}

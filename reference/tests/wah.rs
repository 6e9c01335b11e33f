//! WAH bodies and indexes, worked out by hand.

mod common;
use common::bodies::*;
use common::*;
use reference::limits::*;
use reference::*;

const ANY: usize = usize::MAX;
const BAD: Refusal = Refusal { number: 8, bitmap: 0, word: 0 };
const ONES: u32 = 0x7FFF_FFFF;

fn checked(body: &[u32], rows: u32) -> Result<(), Refusal> {
    check_body(body, rows, Wah)
}

/// Writing these rows gives this body; reading it gives them back.
fn settles(rows: &[bool], body: &[u32]) {
    let (count, words) = (rows.len() as u32, plain(rows));
    assert_eq!(compress(count, &words, Wah, body.len()).as_deref(), Ok(body));
    assert_eq!(checked(body, count), Ok(()));
    assert_eq!(expand(body, count, Wah, words.len()).as_ref(), Ok(&words));
    assert_eq!(body_count(body, count, Wah), Ok(rows.iter().filter(|&&set| set).count() as u32));
    assert_eq!(rewrite(body, count, Wah, Wah, body.len()).as_deref(), Ok(body));
    if !body.is_empty() {
        assert_eq!(compress(count, &words, Wah, body.len() - 1), Err(no(9, 0, body.len() as u64)));
        assert_eq!(expand(body, count, Wah, words.len() - 1), Err(no(9, 0, words.len() as u64)));
    }
}

/// Rows of which these are set.
fn some(count: usize, set: &[usize]) -> Vec<bool> {
    (0..count).map(|row| set.contains(&row)).collect()
}

#[test]
fn settled_by_hand() {
    settles(&[], &[]);
    settles(&[false; 62], &[0x8000_0002]);
    settles(&[true; 62], &[0xC000_0002]);
    settles(&[false; 40], &[0x8000_0002]);
    settles(&[true; 40], &[0xC000_0002]);
    settles(&[false; 31], &[0]);
    settles(&[true; 31], &[ONES]);
    settles(&[false; 9], &[0]);
    settles(&[true; 9], &[0x1FF]);
    settles(&[true], &[1]);
    settles(&[true; 32], &[0xC000_0002]);
    settles(&[true; 93], &[0xC000_0003]);
    settles(&some(40, &[0, 39]), &[1, 0x100]);
    settles(&some(40, &[30]), &[0x4000_0000, 0]);
    settles(&some(40, &[31]), &[0, 1]);
    settles(&some(62, &[61]), &[0, 0x4000_0000]);
    settles(&some(96, &[5, 64]), &[0x20, 0, 4, 0]);
    // Lone clean segments of either value, side by side.
    settles(&[[false; 31], [true; 31]].concat(), &[0, ONES]);
    settles(&[vec![true; 31], vec![false; 62], vec![true; 62]].concat(), &[ONES, 0x8000_0002, 0xC000_0002]);
    // A full last segment ends a run of ones, or is alone.
    settles(&[vec![false; 31], vec![true; 9]].concat(), &[0, 0x1FF]);
    settles(&[vec![false; 31], vec![true; 40]].concat(), &[0, 0xC000_0002]);
}

/// The source's example: 61 segments of none, one with row 13 of its own, two of none.
#[test]
fn published_example() {
    settles(&some(1984, &[61 * 31 + 13]), &[0x8000_003D, 0x0000_2000, 0x8000_0002]);
}

#[test]
fn long_runs() {
    settles(&vec![false; 31 * 65_536], &[0x8001_0000]);
    settles(&vec![true; 31 * 65_535], &[0xC000_FFFF]);
    for refused in [check_body(&[], MOST_ROWS + 1, Wah), body_count(&[], MOST_ROWS + 1, Wah).map(|_| ())] {
        assert_eq!(refused, Err(no(3, 0, 1)));
    }
    assert_eq!(compress(MOST_ROWS + 1, &[], Wah, ANY), Err(no(3, 0, 1)));
}

#[test]
fn wasteful_is_sound() {
    // None of 62 rows, all of them.
    for body in [[0, 0], [0x8000_0001, 0], [0, 0x8000_0001], [0x8000_0001, 0x8000_0001]] {
        assert_eq!(body_count(&body, 62, Wah), Ok(0));
        assert_eq!(rewrite(&body, 62, Wah, Wah, 1), Ok(vec![0x8000_0002]));
    }
    for body in [[ONES, ONES], [0xC000_0001, ONES], [ONES, 0xC000_0001], [0xC000_0001, 0xC000_0001]] {
        assert_eq!(body_count(&body, 62, Wah), Ok(62));
        assert_eq!(rewrite(&body, 62, Wah, Wah, 1), Ok(vec![0xC000_0002]));
    }
    assert_eq!(checked(&[0x8000_0001], 31), Ok(()));
    assert_eq!(checked(&[0xC000_0001], 9), Ok(()));
}

#[test]
fn ten_and_six() {
    // A fill of nothing: at the front, in the middle, behind the last segment, alone.
    for empty in [0x8000_0000, 0xC000_0000] {
        assert_eq!(checked(&[empty, 0x8000_0002], 62), Err(no(10, 0, 0)));
        assert_eq!(checked(&[0, empty, 0], 62), Err(no(10, 0, 1)));
        assert_eq!(checked(&[0x8000_0002, empty], 62), Err(no(10, 0, 1)));
        assert_eq!(checked(&[empty], 62), Err(no(10, 0, 0)));
        assert_eq!(checked(&[empty], 0), Err(no(10, 0, 0)));
        // Front to back.
        assert_eq!(checked(&[empty, 0x8000_0003], 62), Err(no(10, 0, 0)));
        assert_eq!(checked(&[0x8000_0003, empty], 62), Err(no(6, 0, 0)));
    }
    // A literal with none left, a fill too long.
    assert_eq!(checked(&[0x8000_0002, 0], 62), Err(no(6, 0, 1)));
    assert_eq!(checked(&[0, 0, 0], 62), Err(no(6, 0, 2)));
    assert_eq!(checked(&[0x8000_0003], 62), Err(no(6, 0, 0)));
    assert_eq!(checked(&[0xC000_0003], 40), Err(no(6, 0, 0)));
    assert_eq!(checked(&[0, 0x8000_0002], 62), Err(no(6, 0, 1)));
    assert_eq!(checked(&[0xBFFF_FFFF], 62), Err(no(6, 0, 0)));
    assert_eq!(checked(&[u32::MAX], 62), Err(no(6, 0, 0)));
    // No rows.
    assert_eq!(checked(&[], 0), Ok(()));
    for word in [0, ONES, 0x8000_0001, 0xC000_0001] {
        assert_eq!(checked(&[word], 0), Err(no(6, 0, 0)));
    }
    // An early end.
    assert_eq!(checked(&[], 1), Err(no(6, 0, 0)));
    assert_eq!(checked(&[0], 32), Err(no(6, 0, 1)));
    assert_eq!(checked(&[0x8000_0002], 63), Err(no(6, 0, 1)));
    assert_eq!(checked(&[0, 0x8000_0001, 0], 94), Err(no(6, 0, 3)));
}

#[test]
fn seven() {
    assert_eq!(checked(&[0, ONES], 40), Err(no(7, 0, 1)));
    assert_eq!(checked(&[0, ONES], 62), Ok(()));
    assert_eq!(checked(&[0, 0x1FF], 40), Ok(()));
    assert_eq!(checked(&[0, 0x200], 40), Err(no(7, 0, 1)));
    assert_eq!(checked(&[ONES, 0x4000_0000], 61), Err(no(7, 0, 1)));
    assert_eq!(checked(&[ONES], 31), Ok(()));
    assert_eq!(checked(&[ONES], 30), Err(no(7, 0, 0)));
    // Only the last segment has pads; a literal behind it is past the end first.
    assert_eq!(checked(&[ONES, ONES, 1], 63), Ok(()));
    assert_eq!(checked(&[0, 0, ONES], 40), Err(no(6, 0, 2)));
    assert_eq!(checked(&[0, ONES, 0x8000_0000], 40), Err(no(7, 0, 1)));
}

/// Every number of pads.
#[test]
fn pad_bits_in_a_literal() {
    for count in (1..=130).filter(|count| count % WAH_ROWS != 0) {
        let r = count as u32;
        for rows in rows_to_try(count, Wah) {
            let body = spelt(&rows, Wah, |_| false);
            let last = body.len() - 1;
            for pads in [ONES & (u32::MAX << (r % 31)), 1 << (r % 31), 1 << 30] {
                let mut torn = body.clone();
                torn[last] |= pads;
                assert_eq!(checked(&torn, r), Err(no(7, 0, last as u64)));
                assert_eq!(checked(&[&torn[..], &[0x8000_0000]].concat(), r), Err(no(7, 0, last as u64)));
            }
        }
    }
}

#[test]
fn a_fill_past_the_end() {
    for count in 0..=130 {
        let segments = (count as usize).div_ceil(WAH_ROWS);
        for value in [false, true] {
            assert_eq!(checked(&[fill(value, segments + 1)], count), Err(no(6, 0, 0)));
            if segments > 0 {
                let body = [fill(value, segments), fill(value, 1)];
                assert_eq!(checked(&body, count), Err(no(6, 0, 1)));
                assert_eq!(checked(&body[..1], count), Ok(()));
                assert_eq!(checked(&[fill(value, segments), 0], count), Err(no(6, 0, 1)));
            }
        }
    }
}

/// Plain words have 32 rows, and as many words as ever.
#[test]
fn plain_words() {
    assert_eq!(expand(&[0, 1], 62, Wah, 2), Ok(vec![0x8000_0000, 0]));
    assert_eq!(expand(&[0xC000_0002], 32, Wah, 1), Ok(vec![u32::MAX]));
    assert_eq!(compress(32, &[u32::MAX], Wah, 1), Ok(vec![0xC000_0002]));
    // 63 rows: three segments, two plain words.
    assert_eq!(expand(&[0x8000_0002, 1], 63, Wah, 2), Ok(vec![0, 0x4000_0000]));
    assert_eq!(compress(63, &[0; 3], Wah, ANY), Err(BAD));
    assert_eq!(compress(63, &[0], Wah, ANY), Err(BAD));
    assert_eq!(compress(40, &[0, 0x100], Wah, 0), Err(no(7, 0, 1)));
    assert_eq!(compress(62, &[0, 0x4000_0000], Wah, 0), Err(no(7, 0, 1)));
    assert_eq!(compress(40, &[0, 0x80], Wah, ANY), Ok(vec![0, 0x100]));
}

// ---- indexes ----

/// Rows 0 and 1; 1 to 3; 3.
const LOOPED_WAH: [u32; 12] = [2, 4, 3, 9, 1, 10, 1, 11, 1, 0x3, 0xE, 0x8];

#[test]
fn looped_example() {
    assert_eq!(index_in(Wah, 4, &[&[0x3], &[0xE], &[0x8]]), LOOPED_WAH);
    let list = [0, 1, 2];
    let answer = Answer { words: vec![0xA], stretches: 1 };
    assert_eq!(threshold(&LOOPED_WAH, &list, 2, 1), Ok(answer.clone()));
    assert_eq!(symmetric(&LOOPED_WAH, &list, &[0, 0, 1, 1], 1), Ok(answer));
    assert_eq!(histogram(&LOOPED_WAH, &list).unwrap()[..4], [0, 2, 2, 0]);
    assert_eq!(threshold(&LOOPED_WAH, &list, 2, 0), Err(no(9, 0, 1)));
    assert_eq!(threshold(&LOOPED_WAH, &list, 4, 1), Err(BAD));
    assert_eq!(bitmap(&LOOPED_WAH, 1), Ok(10..11));
    assert_eq!(and_not(&LOOPED_WAH, 0, 1, 1), Ok(vec![1]));
    assert_eq!(or(&LOOPED_WAH, 0, 1, 1), Ok(vec![0xF]));
    assert_eq!(nth(&LOOPED_WAH, 1, 2), Ok(3));
}

#[test]
fn kinds() {
    for kind in [0, 3, 4, 0x0200_0000, u32::MAX] {
        let mut index = LOOPED_WAH;
        index[0] = kind;
        assert_eq!(check(&index), Err(no(2, 0, 0)));
    }
    // Sound by one format, unsound by the other.
    let mut index = LOOPED_WAH;
    index[0] = 1;
    assert_eq!(check(&index), Err(no(6, 1, 10)));
    let mut index = LOOPED;
    index[0] = 2;
    assert_eq!(check(&index), Err(no(7, 0, 9)));
    // Before the kind come the lengths, behind it the limits.
    assert_eq!(check(&[2, 4]), Err(no(1, 0, 2)));
    assert_eq!(check(&[2, MOST_ROWS + 1, MOST_BITMAPS + 1]), Err(no(3, 0, 1)));
    assert_eq!(check(&[3, MOST_ROWS + 1, MOST_BITMAPS + 1]), Err(no(2, 0, 0)));
    assert_eq!(check(&[2, 4, MOST_BITMAPS + 1]), Err(no(3, 0, 2)));
    assert_eq!(check(&[2, 4, 1]), Err(no(1, 0, 3)));
    assert_eq!(check(&[2, 4, 1, 6, 0]), Err(no(4, 0, 3)));
}

#[test]
fn places_in_an_index() {
    let with = |body: &[u32]| check(&index_in(Wah, 40, &[&[0, 0], body]));
    assert_eq!(with(&[0, 0x8000_0000]), Err(no(10, 1, 10)));
    assert_eq!(with(&[0x8000_0003]), Err(no(6, 1, 9)));
    assert_eq!(with(&[0, 0, 0]), Err(no(6, 1, 11)));
    assert_eq!(with(&[0]), Err(no(6, 1, 10)));
    assert_eq!(with(&[]), Err(no(6, 1, 9)));
    assert_eq!(with(&[0, 0x200]), Err(no(7, 1, 10)));
    // Bitmap 0 first.
    assert_eq!(check(&index_in(Wah, 40, &[&[0], &[0x8000_0000]])), Err(no(6, 0, 8)));
    // Whatever is asked.
    let torn = index_in(Wah, 40, &[&[0, 0], &[0x8000_0000]]);
    let fault = no(10, 1, 9);
    assert_eq!(row(&torn, 0, 40), Err(fault));
    assert_eq!(threshold(&torn, &[], 0, 0), Err(fault));
    assert_eq!(sum(&torn, &[], &[], 0), Err(fault));
    assert_eq!(value(&torn, &[], 0), Err(fault));
    assert_eq!(rewrite_bitmap(&torn, 9, Ewah, 0), Err(fault));
    assert_eq!(rewrite_index(&torn, Ewah, 0), Err(fault));
}

/// Each fill and each literal is a piece.
#[test]
fn stretches() {
    let bodies: [&[u32]; 4] = [&[0x8000_0004], &[0x8000_0002, 0x8000_0002], &[0, 0x8000_0003], &[0, 0, 0, 0]];
    let index = index_in(Wah, 124, &bodies);
    let asked = |list: &[u32]| threshold(&index, list, 1, ANY).unwrap();
    for (list, stretches) in [(&[0][..], 1), (&[1], 2), (&[2], 2), (&[3], 4), (&[0, 1], 2), (&[1, 2], 3), (&[2, 0], 2)]
    {
        assert_eq!(asked(list), Answer { words: vec![0x8000_0004], stretches });
    }
    // A fill of ones over pads is one piece too.
    let index = index_in(Wah, 40, &[&[0xC000_0002], &[ONES, 0x1FF]]);
    assert_eq!(threshold(&index, &[0, 0], 2, ANY), Ok(Answer { words: vec![0xC000_0002], stretches: 1 }));
    assert_eq!(threshold(&index, &[0, 1], 2, ANY), Ok(Answer { words: vec![0xC000_0002], stretches: 2 }));
}

#[test]
fn columns() {
    // 1, 2, 3 at rows 0, 1, 2; 1, 1, 0 at rows 1, 2, 3.
    let index = index_in(Wah, 4, &[&[0x7], &[0x5], &[0x6], &[0xE], &[0x6]]);
    assert_eq!([0, 1, 2].map(|row| value(&index, &[0, 1, 2], row)), [Ok(1), Ok(2), Ok(3)]);
    assert_eq!(value(&index, &[0, 1, 2], 3), Err(BAD));
    // Row 1: 2 + 1 = 3. Row 2: 3 + 1 = 4.
    let due = [2, 4, 4, 11, 1, 12, 1, 13, 1, 14, 1, 6, 2, 2, 4];
    assert_eq!(sum(&index, &[0, 1, 2], &[3, 4], 15).as_deref(), Ok(&due[..]));
    assert_eq!(sum(&index, &[0, 1, 2], &[3, 4], 14), Err(no(9, 0, 15)));
    assert_eq!(value(&due, &[0, 1, 2, 3], 2), Ok(4));
    assert_eq!(value(&index, &[0, 3], 0), Err(no(11, 3, 3)));
    // No rows.
    assert_eq!(sum(&index_in(Wah, 0, &[&[]]), &[0, 0], &[0, 0], 9), Ok(vec![2, 0, 3, 9, 0, 9, 0, 9, 0]));
}

#[test]
fn the_program() {
    let prints = |t, index: &[u32]| String::from_utf8(program(&input(t, index))).unwrap();
    assert_eq!(prints(2, &LOOPED_WAH), "rows 4\nnamed 3\nthreshold 2\nset 2\n1\n3\n");
    let tail = index_in(Wah, 33, &[&[0, 0xC000_0001]]);
    assert_eq!(prints(1, &tail), "rows 33\nnamed 1\nthreshold 1\nset 2\n31\n32\n");
    assert_eq!(prints(1, &index_in(Wah, 33, &[&[0x8000_0000]])), "refused 10 0 5\n");
    assert_eq!(prints(1, &index_in(Wah, 33, &[&[0, 4]])), "refused 7 0 6\n");
    assert_eq!(prints(1, &[3, 4, 0]), "refused 2 0 0\n");
    assert_eq!(prints(1, &[2, 4, 0]), "refused 8 0 0\n");
}

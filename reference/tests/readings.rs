//! The readings to test by, starred and unstarred.

mod common;
use common::*;
use reference::limits::{TALLY_ENTRIES, WORD_BITS};
use reference::*;

const ANY: usize = usize::MAX;

/// Plain words with these rows set.
fn plain(rows: u32, set: &[u32]) -> Vec<u32> {
    let mut words = vec![0; (rows as usize).div_ceil(WORD_BITS)];
    for &r in set {
        words[r as usize / WORD_BITS] |= 1 << (r as usize % WORD_BITS);
    }
    words
}

/// Plain words with every row set.
fn full(rows: u32) -> Vec<u32> {
    plain(rows, &(0..rows).collect::<Vec<_>>())
}

/// Writing gives this body; reading it gives the words back.
fn settles(rows: u32, words: &[u32], body: &[u32]) {
    assert_eq!(compress(rows, words, Ewah, body.len()).as_deref(), Ok(body));
    assert_eq!(check_body(body, rows, Ewah), Ok(()));
    assert_eq!(expand(body, rows, Ewah, words.len()).as_deref(), Ok(words));
    let ones: u32 = words.iter().map(|w| w.count_ones()).sum();
    assert_eq!(body_count(body, rows, Ewah), Ok(ones));
    if !body.is_empty() {
        let need = body.len() as u64;
        assert_eq!(compress(rows, words, Ewah, body.len() - 1), Err(no(9, 0, need)));
        let need = words.len() as u64;
        assert_eq!(expand(body, rows, Ewah, words.len() - 1), Err(no(9, 0, need)));
    }
}

#[test]
fn zero_rows_no_words() {
    settles(0, &[], &[]);
}

#[test]
fn sixty_four_rows_none_and_all() {
    settles(64, &plain(64, &[]), &[0x0000_0004]);
    settles(64, &full(64), &[0x0000_0005]);
}

#[test]
fn forty_rows() {
    settles(40, &full(40), &[0x0000_0005]);
    settles(40, &plain(40, &[0, 39]), &[0x0004_0000, 0x0000_0001, 0x0000_0080]);
}

/// The reading that was: a dirty word may still spell a full last segment, but it is not written so.
#[test]
fn forty_rows_as_they_were() {
    for body in [&[0x0002_0003, 0x0000_00FF][..], &[0x0004_0000, u32::MAX, 0x0000_00FF]] {
        assert_eq!(check_body(body, 40, Ewah), Ok(()));
        assert_eq!(body_count(body, 40, Ewah), Ok(40));
        assert_eq!(expand(body, 40, Ewah, 2), Ok(full(40)));
        let index = index_of(40, &[body, &[0x0000_0005]]);
        assert_eq!(and(&index, 0, 0, 1), Ok(vec![0x0000_0005]));
        assert_eq!(and(&index, 0, 1, 1), Ok(vec![0x0000_0005]));
        assert_eq!(xor(&index, 0, 1, 1), Ok(vec![0x0000_0004]));
    }
    assert_eq!(check_body(&[0x0002_0003, 0x0000_01FF], 40, Ewah), Err(no(7, 0, 1)));
    assert_eq!(check_body(&[0x0002_0003, u32::MAX], 40, Ewah), Err(no(7, 0, 1)));
}

#[test]
fn ninety_six_rows() {
    settles(96, &plain(96, &[5, 64]), &FIVE_64);
    assert_eq!(check_body(&FIVE_64_WASTEFUL, 96, Ewah), Ok(()));
    assert_eq!(expand(&FIVE_64_WASTEFUL, 96, Ewah, 3), Ok(plain(96, &[5, 64])));
    for body in [FIVE_64, FIVE_64_WASTEFUL] {
        assert_eq!(body_row(&body, 96, Ewah, 5), Ok(Row { set: true, first: 0, last: 31 }));
        assert_eq!(body_row(&body, 96, Ewah, 64), Ok(Row { set: true, first: 64, last: 95 }));
        assert_eq!(body_row(&body, 96, Ewah, 63), Ok(Row { set: false, first: 32, last: 63 }));
        assert_eq!(body_nth(&body, 96, Ewah, 0), Ok(5));
        assert_eq!(body_nth(&body, 96, Ewah, 1), Ok(64));
        assert_eq!(body_nth(&body, 96, Ewah, 2), Err(no(8, 0, 0)));
    }
}

#[test]
fn long_runs() {
    settles(2_097_152, &plain(2_097_152, &[]), &[0x0001_FFFE, 0x0000_0002]);
    settles(2_097_120, &plain(2_097_120, &[]), &[0x0001_FFFE]);
    let mut body = vec![0x0001_FFFE; 8];
    body.push(0x0000_0010);
    settles(16_777_216, &plain(16_777_216, &[]), &body);
}

#[test]
fn one_row_too_many() {
    let refused = no(3, 0, 1);
    let over = 1_073_741_825;
    for format in Format::ALL {
        assert_eq!(check_body(&[], over, format), Err(refused));
        assert_eq!(body_count(&[], over, format), Err(refused));
        assert_eq!(body_row(&[], over, format, 0), Err(refused));
        assert_eq!(body_nth(&[], over, format, 0), Err(refused));
        assert_eq!(expand(&[], over, format, 0), Err(refused));
        assert_eq!(compress(over, &[], format, 0), Err(refused));
        assert_eq!(check(&[format.kind(), over, 0]), Err(refused));
        assert_eq!(check(&[format.kind(), over - 1, 0]), Ok(()));
    }
}

#[test]
fn many_dirty_words() {
    let body = compress(1_048_544, &vec![1; 32_767], Ewah, ANY).unwrap();
    assert_eq!(body.len(), 32_768);
    assert_eq!(body[0], 0xFFFE_0000);
    settles(1_048_544, &vec![1; 32_767], &body);

    let body = compress(1_048_576, &vec![1; 32_768], Ewah, ANY).unwrap();
    assert_eq!(body.len(), 32_770);
    assert_eq!(body[0], 0xFFFE_0000);
    assert_eq!(body[32_768], 0x0002_0000);
    settles(1_048_576, &vec![1; 32_768], &body);
}

#[test]
fn looped_example() {
    assert_eq!(index_of(4, &[&[0x0002_0000, 3], &[0x0002_0000, 0xE], &[0x0002_0000, 8]]), LOOPED);
    assert_eq!(check(&LOOPED), Ok(()));
    let list = [0, 1, 2];
    let answer = Answer { words: vec![0x0002_0000, 0xA], stretches: 1 };
    assert_eq!(threshold(&LOOPED, &list, 2, 2), Ok(answer.clone()));
    assert_eq!(symmetric(&LOOPED, &list, &[0, 0, 1, 1], 2), Ok(answer));
    let mut tally = [0; TALLY_ENTRIES];
    tally[1] = 2;
    tally[2] = 2;
    assert_eq!(histogram(&LOOPED, &list), Ok(tally));
    assert_eq!(threshold(&LOOPED, &list, 4, 2), Err(no(8, 0, 0)));
    assert_eq!(threshold(&LOOPED, &list, 2, 1), Err(no(9, 0, 2)));
}

#[test]
fn eight_rows_two_at_a_time() {
    let index = index_of(8, &[&[0x0002_0000, 0x32], &[0x0002_0000, 0xB0]]);
    assert_eq!(and(&index, 0, 1, 2), Ok(vec![0x0002_0000, 0x30]));
    assert_eq!(or(&index, 0, 1, 2), Ok(vec![0x0002_0000, 0xB2]));
    assert_eq!(xor(&index, 0, 1, 2), Ok(vec![0x0002_0000, 0x82]));
    assert_eq!(and_not(&index, 0, 1, 2), Ok(vec![0x0002_0000, 0x02]));
    assert_eq!(not(&index, 0, 2), Ok(vec![0x0002_0000, 0xCD]));
}

#[test]
fn three_stretches() {
    for body in [FIVE_64, FIVE_64_WASTEFUL] {
        let index = index_of(96, &[&[0x0000_0006], &body]);
        assert_eq!(threshold(&index, &[0, 1], 1, 4), Ok(Answer { words: FIVE_64.to_vec(), stretches: 3 }));
        assert_eq!(threshold(&index, &[0, 1], 2, 1), Ok(Answer { words: vec![6], stretches: 3 }));
        assert_eq!(threshold(&index, &[0], 1, 1), Ok(Answer { words: vec![6], stretches: 1 }));
    }
}

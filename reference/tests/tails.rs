//! The last segment: none of its rows, all or some, spelt by a run or by a dirty word, for every number of pads.

mod common;
use common::bodies::*;
use common::*;
use reference::limits::WORD_BITS;
use reference::*;

const ANY: usize = usize::MAX;
const BAD: Refusal = Refusal { number: 8, bitmap: 0, word: 0 };

/// One spelling of these rows, asked everything.
fn ask_body(rows: &[bool], body: &[u32], format: Format) {
    let (r, last) = (rows.len() as u32, rows[rows.len() - 1]);
    let set: Vec<u32> = (0..r).filter(|&row| rows[row as usize]).collect();
    let n = set.len() as u32;
    assert_eq!(check_body(body, r, format), Ok(()), "{r} {body:x?}");
    assert_eq!(body_count(body, r, format), Ok(n));
    assert_eq!(body_row(body, r, format, r - 1).map(|row| row.set), Ok(last));
    assert_eq!([r, r | 31].map(|row| body_row(body, r, format, row)), [Err(BAD); 2]);
    let nths: Vec<u32> = (0..n).map(|n| body_nth(body, r, format, n).unwrap()).collect();
    assert_eq!(nths, set);
    assert_eq!([n, n + 1, r | 31].map(|n| body_nth(body, r, format, n)), [Err(BAD); 3]);
    assert_eq!(expand(body, r, format, ANY), Ok(plain(rows)));
    assert!(settled(rows, format).len() <= body.len());
}

#[test]
fn one_body() {
    for format in Format::ALL {
        for count in 1..=130 {
            for rows in rows_to_try(count, format) {
                for body in bodies(&rows, format) {
                    ask_body(&rows, &body, format);
                }
                let written = compress(count as u32, &plain(&rows), format, ANY);
                assert_eq!(written, Ok(settled(&rows, format)), "{count}");
            }
        }
    }
}

#[test]
fn answers() {
    answers_in(Ewah);
}

#[test]
fn answers_in_wah() {
    answers_in(Wah);
}

fn answers_in(format: Format) {
    for count in 1..=130 {
        let r = count as u32;
        // The spellings of all rows and of none, and one of each of the others.
        let mut all: Vec<(Vec<bool>, Vec<u32>)> = Vec::new();
        for value in [true, false] {
            all.extend(bodies(&vec![value; count], format).into_iter().map(|body| (vec![value; count], body)));
        }
        all.extend(rows_to_try(count, format).into_iter().map(|rows| (rows.clone(), settled(&rows, format))));
        let index = index_in(format, r, &all.iter().map(|(_, body)| &body[..]).collect::<Vec<_>>());

        for (j, (a, _)) in (0..).zip(&all) {
            let rule = |rule: &dyn Fn(usize) -> bool| settled(&(0..count).map(rule).collect::<Vec<_>>(), format);
            assert_eq!(not(&index, j, ANY), Ok(rule(&|row| !a[row])));
            for (k, (b, _)) in (0..).zip(&all) {
                assert_eq!(and(&index, j, k, ANY), Ok(rule(&|row| a[row] && b[row])));
                assert_eq!(or(&index, j, k, ANY), Ok(rule(&|row| a[row] || b[row])));
                assert_eq!(xor(&index, j, k, ANY), Ok(rule(&|row| a[row] != b[row])));
                assert_eq!(and_not(&index, j, k, ANY), Ok(rule(&|row| a[row] && !b[row])));
                let held = |row: usize| usize::from(a[row]) + usize::from(b[row]);
                for table in 0..8 {
                    let yes = |held: usize| (table >> held) & 1;
                    let words = symmetric(&index, &[j, k], &[yes(0), yes(1), yes(2)], ANY).unwrap().words;
                    assert_eq!(words, rule(&|row| yes(held(row)) == 1));
                }
                let tally = histogram(&index, &[j, k]).unwrap();
                let due = [0, 1, 2].map(|c| (0..count).filter(|&row| held(row) == c).count() as u32);
                assert_eq!(tally[..3], due);
            }
        }
    }
}

/// The run is one piece, the dirty word another.
#[test]
fn stretches() {
    let index = index_of(40, &[&[5], &[0x0002_0003, 0xFF], &[3, 3]]);
    let asked = |list: &[u32]| threshold(&index, list, 1, ANY).unwrap();
    assert_eq!(asked(&[0]), Answer { words: vec![5], stretches: 1 });
    assert_eq!(asked(&[1]), Answer { words: vec![5], stretches: 2 });
    assert_eq!(asked(&[2]), Answer { words: vec![5], stretches: 2 });
    assert_eq!(asked(&[0, 1, 2]), Answer { words: vec![5], stretches: 2 });
}

#[test]
fn pad_bits_in_a_dirty_word() {
    for count in (1..=130).filter(|count| count % WORD_BITS != 0) {
        let r = count as u32;
        for rows in rows_to_try(count, Ewah) {
            let body = spelt(&rows, Ewah, |_| false);
            let last = body.len() - 1;
            for pads in [u32::MAX << (r % 32), 1 << (r % 32), 1 << 31] {
                let mut torn = body.clone();
                torn[last] |= pads;
                let fault = no(7, 0, last as u64);
                assert_eq!(check_body(&torn, r, Ewah), Err(fault));
                assert_eq!(check_body(&[&torn[..], &[1, 0]].concat(), r, Ewah), Err(fault));
                let mut words = plain(&rows);
                let end = words.len() - 1;
                words[end] |= pads;
                assert_eq!(compress(r, &words, Ewah, ANY), Err(no(7, 0, end as u64)));
            }
        }
    }
}

#[test]
fn a_run_past_the_end() {
    for count in 0..=130 {
        let segments = (count as usize).div_ceil(WORD_BITS);
        for value in [false, true] {
            assert_eq!(check_body(&[marker(value, segments + 1, 0)], count, Ewah), Err(no(6, 0, 0)));
            let body = [marker(value, segments, 0), marker(value, 1, 0)];
            assert_eq!(check_body(&body, count, Ewah), Err(no(6, 0, 1)));
            assert_eq!(check_body(&body[..1], count, Ewah), Ok(()));
            assert_eq!(check_body(&[marker(value, segments, 1), 0], count, Ewah), Err(no(6, 0, 0)));
        }
    }
}

//! The pieces of a body and the rows they have, asked row by row and as a whole.

mod common;
use common::bodies::*;
use common::*;
use reference::limits::{MOST_CLEAN, MOST_ROWS};
use reference::*;

const ANY: usize = usize::MAX;
const BAD: Refusal = Refusal { number: 8, bitmap: 0, word: 0 };

/// Asks every row of a body, alone and second in an index: these are its pieces and no others.
fn has_pieces(body: &[u32], rows: u32, format: Format, due: &[(u32, u32)]) {
    let index = index_in(format, rows, &[&spelt(&vec![true; rows as usize], format, |_| true), body]);
    assert_eq!(body_pieces(body, rows, format).as_deref(), Ok(due), "{rows} {body:x?}");
    assert_eq!(pieces(&index, 1).as_deref(), Ok(due));
    let words = expand(body, rows, format, ANY).unwrap();
    let mut next = 0;
    for &(first, last) in due {
        assert_eq!(first, next);
        for asked in first..=last {
            let set = (words[asked as usize / 32] >> (asked % 32)) & 1 == 1;
            assert_eq!(body_row(body, rows, format, asked), Ok(Row { set, first, last }), "{rows} {body:x?}");
            assert_eq!(row(&index, 1, asked), Ok(Row { set, first, last }));
        }
        next = last + 1;
    }
    assert_eq!(next, rows);
    assert_eq!([rows, rows + 1, rows | 31, u32::MAX].map(|row| body_row(body, rows, format, row)), [Err(BAD); 4]);
    assert_eq!(row(&index, 1, rows), Err(BAD));
}

#[test]
fn markers() {
    let three = [(0, 31), (32, 63), (64, 95)];
    has_pieces(&FIVE_64, 96, Ewah, &three);
    has_pieces(&FIVE_64_WASTEFUL, 96, Ewah, &three);
    // Each segment with a marker of its own.
    has_pieces(&[2, 2, 2], 96, Ewah, &three);
    has_pieces(&[6], 96, Ewah, &[(0, 95)]);
    // Equal runs side by side, then unequal ones.
    has_pieces(&[4, 2], 96, Ewah, &[(0, 63), (64, 95)]);
    has_pieces(&[3, 5], 96, Ewah, &[(0, 31), (32, 95)]);
    has_pieces(&[2, 5], 96, Ewah, &[(0, 31), (32, 95)]);
    // A marker's run and its dirty word, which are alike.
    has_pieces(&[0x0002_0004, 0], 96, Ewah, &[(0, 63), (64, 95)]);
    has_pieces(&[0x0002_0005, u32::MAX], 96, Ewah, &[(0, 63), (64, 95)]);
}

#[test]
fn idle_markers_are_no_pieces() {
    has_pieces(&[0, 1, 4, 1, 0, 2, 0], 96, Ewah, &[(0, 63), (64, 95)]);
    has_pieces(&[1, 0x0002_0000, 9, 0, 0x0004_0000, 9, 9, 1], 96, Ewah, &[(0, 31), (32, 63), (64, 95)]);
}

#[test]
fn cut_at_the_last_row() {
    has_pieces(&[5], 40, Ewah, &[(0, 39)]);
    has_pieces(&[4], 40, Ewah, &[(0, 39)]);
    has_pieces(&[3, 3], 40, Ewah, &[(0, 31), (32, 39)]);
    has_pieces(&[0x0002_0003, 0xFF], 40, Ewah, &[(0, 31), (32, 39)]);
    has_pieces(&[0x0002_0000, 1], 1, Ewah, &[(0, 0)]);
    has_pieces(&[0xC000_0002], 40, Wah, &[(0, 39)]);
    has_pieces(&[0x7FFF_FFFF, 0x1FF], 40, Wah, &[(0, 30), (31, 39)]);
    has_pieces(&[0, 0xC000_0001], 32, Wah, &[(0, 30), (31, 31)]);
    has_pieces(&[1], 1, Wah, &[(0, 0)]);
}

#[test]
fn fills_and_literals() {
    has_pieces(&[0x8000_0002], 62, Wah, &[(0, 61)]);
    has_pieces(&[0, 0], 62, Wah, &[(0, 30), (31, 61)]);
    has_pieces(&[0x8000_0001, 0x8000_0001], 62, Wah, &[(0, 30), (31, 61)]);
    has_pieces(&[0x8000_0001, 0x8000_0002], 93, Wah, &[(0, 30), (31, 92)]);
    has_pieces(&[0x7FFF_FFFF, 0xC000_0002], 93, Wah, &[(0, 30), (31, 92)]);
    has_pieces(&[0xC000_0002, 0x8000_0001, 5], 124, Wah, &[(0, 61), (62, 92), (93, 123)]);
}

#[test]
fn no_rows_no_pieces() {
    for body in [&[][..], &[0], &[1, 0]] {
        has_pieces(body, 0, Ewah, &[]);
    }
    has_pieces(&[], 0, Wah, &[]);
}

#[test]
fn long_runs() {
    let body = [0x0001_FFFE, 2];
    let due = [(0, 2_097_119), (2_097_120, 2_097_151)];
    assert_eq!(body_pieces(&body, 2_097_152, Ewah).as_deref(), Ok(&due[..]));
    for (asked, (first, last)) in [(0, due[0]), (2_097_119, due[0]), (2_097_120, due[1]), (2_097_151, due[1])] {
        assert_eq!(body_row(&body, 2_097_152, Ewah, asked), Ok(Row { set: false, first, last }));
    }
    assert_eq!(body_row(&body, 2_097_152, Ewah, 2_097_152), Err(BAD));

    // 33,554,432 segments: 512 full markers, and one with 512 segments.
    let most = [[0x0001_FFFE; 512].as_slice(), &[0x400]].concat();
    let run = 32 * MOST_CLEAN as u32;
    let due: Vec<(u32, u32)> = (0..513).map(|k| (k * run, ((k + 1) * run).min(MOST_ROWS) - 1)).collect();
    assert_eq!(body_pieces(&most, MOST_ROWS, Ewah), Ok(due));
    let last = Row { set: false, first: 1_073_725_440, last: 1_073_741_823 };
    assert_eq!(body_row(&most, MOST_ROWS, Ewah, 1_073_741_000), Ok(last));
    // One fill has them all: 34,636,834 segments.
    let all = Row { set: true, first: 0, last: 1_073_741_823 };
    assert_eq!(body_row(&[0xC210_8422], MOST_ROWS, Wah, 1_073_741_823), Ok(all));
}

#[test]
fn refusals_tell_no_piece() {
    assert_eq!(body_pieces(&[4, 2], 64, Ewah), Err(no(6, 0, 1)));
    assert_eq!(body_row(&[4, 2], 64, Ewah, 0), Err(no(6, 0, 1)));
    assert_eq!(body_pieces(&[0x8000_0000], 62, Wah), Err(no(10, 0, 0)));
    for format in Format::ALL {
        assert_eq!(body_pieces(&[], MOST_ROWS + 1, format), Err(no(3, 0, 1)));
        assert_eq!(body_row(&[], MOST_ROWS + 1, format, 0), Err(no(3, 0, 1)));
    }
    assert_eq!(pieces(&LOOPED, 2), Ok(vec![(0, 3)]));
    assert_eq!(pieces(&LOOPED, 3), Err(BAD));
    // The other body is at fault.
    let torn = index_of(64, &[&[4], &[2]]);
    assert_eq!(pieces(&torn, 0), Err(no(6, 1, 9)));
    assert_eq!(row(&torn, 0, 64), Err(no(6, 1, 9)));
}

/// A body put together piece by piece, with the segments at which its pieces end.
fn throw(dice: &mut Dice, format: Format) -> (Vec<u32>, Vec<u32>) {
    let (mut body, mut ends, mut segments) = (Vec::new(), Vec::new(), 0);
    for _ in 0..1 + dice.below(6) {
        let (value, run) = (dice.below(2) == 1, dice.below(4));
        let dirty = dice.below(4);
        match format {
            Ewah => body.push(marker(value, run as usize, dirty as usize)),
            Wah if run > 0 => body.push(fill(value, run as usize)),
            Wah => {}
        }
        if run > 0 {
            segments += run;
            ends.push(segments);
        }
        for _ in 0..dirty {
            // Without a bit that could be a pad or WAH's flag.
            body.push([0, 1][dice.below(2) as usize]);
            segments += 1;
            ends.push(segments);
        }
    }
    (body, ends)
}

#[test]
fn put_together() {
    let mut dice = Dice(5);
    for format in Format::ALL {
        for _ in 0..300 {
            let (body, ends) = throw(&mut dice, format);
            let width = format.width() as u32;
            let rows = (width * ends.last().unwrap_or(&0)).saturating_sub(dice.below(width));
            let starts = [0].into_iter().chain(ends.iter().copied());
            let due: Vec<(u32, u32)> =
                starts.zip(&ends).map(|(start, &end)| (width * start, (width * end).min(rows) - 1)).collect();
            has_pieces(&body, rows, format, &due);
        }
    }
}

/// Walked from row 0, the pieces come in order; their set rows add up to the count and lead to every nth row.
fn walk(body: &[u32], rows: u32, format: Format) {
    let told = body_pieces(body, rows, format).unwrap();
    let (mut met, mut next, mut sums) = (Vec::new(), 0, vec![0]);
    while next < rows {
        let Row { first, last, .. } = body_row(body, rows, format, next).unwrap();
        met.push((first, last));
        let set = (first..=last).filter(|&row| body_row(body, rows, format, row).unwrap().set).count();
        sums.push(sums[sums.len() - 1] + set);
        next = last + 1;
    }
    assert_eq!(met, told);
    assert_eq!(sums.last().copied(), body_count(body, rows, format).ok().map(|n| n as usize));
    for n in 0..sums[sums.len() - 1] {
        let nth = body_nth(body, rows, format, n as u32).unwrap();
        let piece = sums[1..].iter().position(|&sum| sum > n).unwrap();
        assert!((met[piece].0..=met[piece].1).contains(&nth));
    }
}

#[test]
fn walks() {
    for format in Format::ALL {
        for count in 1..=100 {
            for rows in rows_to_try(count, format) {
                for body in bodies(&rows, format) {
                    walk(&body, count as u32, format);
                }
            }
        }
    }
}

//! At the limits and one over, in both formats.

mod common;
use common::bodies::*;
use common::*;
use reference::limits::*;
use reference::*;

const ANY: usize = usize::MAX;
const BAD: Refusal = Refusal { number: 8, bitmap: 0, word: 0 };
const LAST: u32 = MOST_ROWS - 1;

#[test]
fn the_limits() {
    assert_eq!((MOST_ROWS, MOST_BITMAPS, MOST_NAMED), (1_073_741_824, 256, 256));
    assert_eq!((TALLY_ENTRIES, MOST_INDEX_WORDS), (257, 67_108_864));
    assert_eq!((MOST_SUMMED, MOST_VALUED), (33, 34));
}

// ---- bitmaps and lists ----

/// 40 rows: bitmap k holds rows 0 and 1 if k is below 255, and bitmap 255 holds row 0.
fn full_index(format: Format, bitmaps: usize) -> Vec<u32> {
    let body = |k: usize| {
        let rows: Vec<bool> = (0..40).map(|row| row == 0 || row == 1 && k != 255).collect();
        settled(&rows, format)
    };
    let bodies: Vec<Vec<u32>> = (0..bitmaps).map(body).collect();
    index_in(format, 40, &bodies.iter().map(|body| &body[..]).collect::<Vec<_>>())
}

#[test]
fn bitmaps_of_an_index() {
    for format in Format::ALL {
        let index = full_index(format, 256);
        assert_eq!(check(&index), Ok(()));
        assert_eq!((count(&index, 254), count(&index, 255), count(&index, 256)), (Ok(2), Ok(1), Err(BAD)));
        assert_eq!(check(&full_index(format, 257)), Err(no(3, 0, 2)));
        for to in Format::ALL {
            assert_eq!(rewrite_index(&index, to, ANY), Ok(full_index(to, 256)));
        }
        // The contents don't have to be there for it.
        assert_eq!(check(&[format.kind(), 40, 257]), Err(no(3, 0, 2)));
        assert_eq!(check(&[format.kind(), 40, 256]), Err(no(1, 0, 3)));
    }
}

#[test]
fn numbers_in_a_list() {
    for format in Format::ALL {
        let index = full_index(format, 256);
        let mut list: Vec<u32> = (0..256).collect();
        let of = |rows: &[bool]| Answer { words: settled(rows, format), stretches: 2 };
        let row_0: Vec<bool> = (0..40).map(|row| row == 0).collect();
        let row_1: Vec<bool> = (0..40).map(|row| row == 1).collect();

        // Row 0 has 256 holders, row 1 has 255, the others none.
        assert_eq!(threshold(&index, &list, 256, ANY), Ok(of(&row_0)));
        assert_eq!(threshold(&index, &list, 257, ANY), Err(BAD));
        let mut table = vec![0; 257];
        table[256] = 1;
        assert_eq!(symmetric(&index, &list, &table, ANY), Ok(of(&row_0)));
        table.swap(255, 256);
        assert_eq!(symmetric(&index, &list, &table, ANY), Ok(of(&row_1)));
        for length in [0, 1, 256, 258] {
            assert_eq!(symmetric(&index, &list, &vec![0; length], ANY), Err(BAD));
        }
        let mut tally = [0; 257];
        (tally[0], tally[255], tally[256]) = (38, 1, 1);
        assert_eq!(histogram(&index, &list), Ok(tally));

        list.push(0);
        assert_eq!(threshold(&index, &list, 1, ANY), Err(BAD));
        for length in [257, 258] {
            assert_eq!(symmetric(&index, &list, &vec![0; length], ANY), Err(BAD));
        }
        assert_eq!(histogram(&index, &list), Err(BAD));
    }
}

// ---- rows ----

/// A settled body of these clean runs: how many segments, and their value.
fn of_runs(runs: &[(usize, bool)], format: Format) -> Vec<u32> {
    let mut body = Vec::new();
    for &(segments, value) in runs {
        match format {
            Wah => body.push(fill(value, segments)),
            Ewah => {
                body.extend(vec![marker(value, MOST_CLEAN, 0); (segments - 1) / MOST_CLEAN]);
                body.push(marker(value, (segments - 1) % MOST_CLEAN + 1, 0));
            }
        }
    }
    body
}

/// Runs of 65,535 segments of ones and 65,536 of zeros, up to the last segment.
fn alternate(format: Format) -> Vec<(usize, bool)> {
    let mut left = (MOST_ROWS as usize).div_ceil(format.width());
    let mut runs = Vec::new();
    while left > 0 {
        let value = runs.len() % 2 == 0;
        let run = left.min(if value { MOST_CLEAN } else { MOST_CLEAN + 1 });
        runs.push((run, value));
        left -= run;
    }
    runs
}

/// Row 2^29 alone. In WAH it is row 16 of segment 17,318,416; there are 34,636,834.
fn one_row(format: Format) -> Vec<u32> {
    match format {
        Wah => vec![fill(false, 17_318_416), 1 << 16, fill(false, 17_318_417)],
        Ewah => {
            let before = vec![marker(false, MOST_CLEAN, 0); 256];
            let after = vec![marker(false, MOST_CLEAN, 0); 256];
            let carries = [marker(false, 256, 1), 1];
            [before, carries.to_vec(), after, vec![marker(false, 255, 0)]].concat()
        }
    }
}

/// None, all, one in the middle, alternate runs.
fn longest(format: Format) -> [Vec<u32>; 4] {
    let segments = (MOST_ROWS as usize).div_ceil(format.width());
    let whole = |value| of_runs(&[(segments, value)], format);
    [whole(false), whole(true), one_row(format), of_runs(&alternate(format), format)]
}

/// How many rows the alternate runs set.
fn set_by_alternate(format: Format) -> u32 {
    let (mut set, mut row) = (0, 0);
    for (segments, value) in alternate(format) {
        let end = (row + (format.width() * segments) as u32).min(MOST_ROWS);
        set += if value { end - row } else { 0 };
        row = end;
    }
    set
}

#[test]
fn most_rows_in_a_body() {
    for format in Format::ALL {
        let set = [0, MOST_ROWS, 1, set_by_alternate(format)];
        for (body, set) in longest(format).iter().zip(set) {
            assert_eq!(check_body(body, MOST_ROWS, format), Ok(()));
            assert_eq!(body_count(body, MOST_ROWS, format), Ok(set));
            assert_eq!(body_nth(body, MOST_ROWS, format, set), Err(BAD));
            assert_eq!(body_row(body, MOST_ROWS, format, MOST_ROWS), Err(BAD));
            assert_eq!(check_body(body, MOST_ROWS + 1, format), Err(no(3, 0, 1)));
            for to in Format::ALL {
                let there = rewrite(body, MOST_ROWS, format, to, ANY).unwrap();
                assert_eq!(rewrite(&there, MOST_ROWS, to, format, body.len()).as_ref(), Ok(body));
            }
        }
        let [none, all, one, _] = longest(format);
        assert_eq!(body_row(&none, MOST_ROWS, format, LAST).map(|row| row.set), Ok(false));
        assert_eq!(body_row(&all, MOST_ROWS, format, LAST).map(|row| (row.set, row.last)), Ok((true, LAST)));
        assert_eq!(body_nth(&all, MOST_ROWS, format, LAST), Ok(LAST));
        assert_eq!(body_nth(&one, MOST_ROWS, format, 0), Ok(536_870_912));
    }
}

/// 33,554,432 plain words, written and read.
#[test]
fn most_rows_as_plain_words() {
    let mut words = vec![0; MOST_ROWS as usize / WORD_BITS];
    words[536_870_912 / WORD_BITS] = 1;
    for format in Format::ALL {
        let body = one_row(format);
        assert_eq!(compress(MOST_ROWS, &words, format, body.len()).as_ref(), Ok(&body));
        assert_eq!(compress(MOST_ROWS, &words, format, body.len() - 1), Err(no(9, 0, body.len() as u64)));
        assert_eq!(compress(MOST_ROWS, &words[1..], format, ANY), Err(BAD));
        assert_eq!(compress(MOST_ROWS + 1, &words, format, ANY), Err(no(3, 0, 1)));
        assert!(expand(&body, MOST_ROWS, format, words.len()).as_ref() == Ok(&words));
        assert_eq!(expand(&body, MOST_ROWS, format, words.len() - 1), Err(no(9, 0, 33_554_432)));
    }
}

#[test]
fn most_rows_in_an_index() {
    for format in Format::ALL {
        let bodies = longest(format);
        let index = index_in(format, MOST_ROWS, &bodies.each_ref().map(|body| &body[..]));
        let [none, all, one, alternate] = &bodies;
        let set = set_by_alternate(format);
        // The one in the middle lies in a run of ones: 128 or 17,044 segments behind its start.
        assert_eq!(and(&index, 2, 3, ANY).as_ref(), Ok(one));
        assert_eq!(and_not(&index, 2, 3, ANY).as_ref(), Ok(none));
        assert_eq!(or(&index, 0, 3, ANY).as_ref(), Ok(alternate));
        assert_eq!(xor(&index, 1, 1, ANY).as_ref(), Ok(none));
        assert_eq!(not(&index, 0, ANY).as_ref(), Ok(all));

        let list = [vec![1; 253], vec![0, 2, 3]].concat();
        let answer = threshold(&index, &list, 254, ANY).unwrap();
        assert_eq!(&answer.words, alternate);
        let tally = histogram(&index, &list).unwrap();
        assert_eq!((&tally[..253], &tally[253..]), (&[0; 253][..], &[MOST_ROWS - set, set - 1, 1, 0][..]));
        let table: Vec<u32> = (0..257).map(|c| u32::from(c >= 254)).collect();
        assert_eq!(symmetric(&index, &list, &table, ANY), Ok(answer));

        assert_eq!(value(&index, &[1, 0, 1, 2, 3], 536_870_912), Ok(2 + 4 + 8));
        let twice = sum(&index, &[1, 1], &[1, 1], ANY).unwrap();
        assert_eq!(twice, index_in(format, MOST_ROWS, &[all, none, all]));
        // 0 - 1 everywhere; the smaller is 0.
        let less = signed_difference(&index, &[1, 0], &[1, 1], ANY).unwrap();
        assert_eq!(less, index_in(format, MOST_ROWS, &[all, all, all]));
        assert_eq!(signed_value(&less, &[0, 1, 2], LAST), Ok(-1));
        for call in [smaller, difference_or_zero] {
            assert_eq!(call(&index, &[1, 0], &[1, 1], ANY).unwrap(), index_in(format, MOST_ROWS, &[all, none]));
        }
        for to in Format::ALL {
            let there = rewrite_index(&index, to, ANY).unwrap();
            assert_eq!(rewrite_index(&there, format, index.len()).as_ref(), Ok(&index));
        }
    }
}

// ---- words of an index ----

/// 2^26 rows, every segment of EWAH mixed: the value changes in the middle of each.
const DENSE_ROWS: u32 = 1 << 26;

fn dense(format: Format) -> Vec<u32> {
    let plain: Vec<u32> = (0..DENSE_ROWS / 32).map(|at| if at % 2 == 0 { 0xFFFF } else { 0xFFFF_0000 }).collect();
    let body = compress(DENSE_ROWS, &plain, format, ANY).unwrap();
    index_in(format, DENSE_ROWS, &[&body])
}

/// 2^32 - 1 in each row that exists, twice: existence and slices 1 to 32 are the body, slice 0 is empty.
#[test]
#[ignore = "half a minute; cargo test -p reference --test limits -- --ignored"]
fn a_sum_too_long() {
    // 34 bodies behind 3 + 2 * 34 words.
    let front = 71;
    // EWAH: 2,097,152 dirty words under 65 markers (64 of 32,767 and one of 64); none is 33 markers
    // (32 of 65,535 and one of 32). 71 + 33 * 2,097,217 + 33 = 69,208,265.
    // WAH: 2,164,803 segments, no two clean ones side by side; none is one fill. 71 + 33 * 2,164,803 + 1 = 71,438,571.
    for (format, body, empty, need) in [(Ewah, 2_097_217, 33, 69_208_265), (Wah, 2_164_803, 1, 71_438_571)] {
        let index = dense(format);
        assert_eq!(index.len(), HEAD_WORDS + ENTRY_WORDS + body);
        assert_eq!(front + 33 * body + empty, need);
        for room in [MOST_INDEX_WORDS, need] {
            assert_eq!(sum(&index, &[0; 33], &[0; 33], room), Err(no(9, 0, need as u64)), "{format:?} {room}");
        }
        // The smaller of the two has no slice above theirs: all bodies are this one.
        let need = (need - 2 - empty) as u64;
        assert_eq!(smaller(&index, &[0; 33], &[0; 33], ANY), Err(no(9, 0, need)), "{format:?}");
    }
}

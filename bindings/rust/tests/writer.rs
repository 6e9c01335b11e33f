//! Rows that come in batches: readings by hand, and rows by chance against all of them at once.

#[path = "shared/random.rs"]
mod random;
mod shared;

use random::Random;
use shared::{no_room, said, told, Numbers, BAD, UNTOUCHED};
use zvonurel::*;

const FORTY: [u32; 3] = [0x40000, 0x1, 0x80];
const MISMATCH: Numbers = (Refusal::STATE_MISMATCH, 0, 0);

/// A buffer of so many words that begins with these, and the state that belongs to them.
fn kept(room: usize, body: &[u32], rows: u64) -> (Vec<u32>, AppendState) {
    let mut out = vec![UNTOUCHED; room];
    out[..body.len()].copy_from_slice(body);
    (out, AppendState { room: room as u64, rows, words: body.len() as u64 })
}

/// What a batch is told. A refused one changes neither the state nor the buffer, and an accepted one no word behind the
/// body.
fn given(out: &mut [u32], state: &mut AppendState, rows: u32, plain: &[u32]) -> Result<usize, Numbers> {
    let (before, was) = (out.to_vec(), *state);
    let answer = told(append(state, out, rows, plain));
    match answer {
        Ok(words) => {
            assert_eq!(*state, AppendState { rows: was.rows + u64::from(rows), words: words as u64, ..was });
            assert_eq!(out[words..], before[words..]);
        }
        Err(_) => assert_eq!((&*out, *state), (&before[..], was)),
    }
    answer
}

// ---- readings by hand

/// Batches one behind the other, each with the body that there is then.
fn chain(batches: &[(u32, &[u32], &[u32])]) {
    let mut out = [UNTOUCHED; 9];
    let mut state = begin(&out);
    for (rows, plain, body) in batches {
        assert_eq!(given(&mut out, &mut state, *rows, plain), Ok(body.len()));
        assert_eq!(out[..body.len()], **body);
    }
}

#[test]
fn chains() {
    chain(&[
        (0, &[], &[]),
        (1, &[1], &[0x3]),
        (31, &[0], &[0x20000, 0x1]),
        (7, &[0], &[0x20000, 0x1, 0x2]),
        (1, &[1], &FORTY),
        (0, &[], &FORTY),
    ]);
    chain(&[
        (40, &[!0, 0xFF], &[0x5]),
        (1, &[1], &[0x5]),
        (1, &[0], &[0x20003, 0x1FF]),
        (54, &[0, 0], &[0x20003, 0x1FF, 0x2]),
        (32, &[!0], &[0x20003, 0x1FF, 0x2, 0x3]),
    ]);
}

#[test]
fn every_refusal_in_its_order() {
    let (mut out, state) = kept(3, &FORTY, 40);
    let mut told_of = |state: AppendState, rows, plain: &[u32]| given(&mut out, &mut { state }, rows, plain);
    assert_eq!(told_of(AppendState { room: 4, ..state }, MOST_ROWS - 39, &[2]), Err(MISMATCH));
    assert_eq!(told_of(state, MOST_ROWS - 39, &[2]), Err((3, 0, 1)));
    assert_eq!(told_of(state, 33, &[2]), Err(BAD));
    assert_eq!(told_of(state, 33, &[1, 2]), Err((7, 0, 1)));
    assert_eq!(told_of(state, 33, &[1, 0]), no_room(4));
    assert_eq!(told_of(state, 0, &[0]), Err(BAD));
    assert_eq!(told_of(state, 0, &[]), Ok(3));
    assert_eq!(told_of(state, 24, &[0]), Ok(3));
}

#[test]
fn states_and_buffers_that_do_not_belong_together() {
    let (mut out, right) = kept(9, &FORTY, 40);
    let past = 1 << 32;
    for state in [
        AppendState { room: 8, ..right },
        AppendState { room: 9 + past, ..right },
        AppendState { rows: u64::from(MOST_ROWS) + 1, ..right },
        AppendState { rows: 40 + past, ..right },
        AppendState { rows: 39, ..right },
        AppendState { rows: 65, ..right },
        AppendState { words: 10, ..right },
        AppendState { words: 3 + past, ..right },
        AppendState { words: 2, ..right },
        AppendState { words: 4, ..right },
        AppendState { words: 0, ..right },
        AppendState { room: u64::MAX, rows: u64::MAX, words: u64::MAX },
        AppendState::default(),
    ] {
        for (rows, plain) in [(0, &[][..]), (1, &[1]), (u32::MAX, &[2])] {
            assert_eq!(given(&mut out, &mut { state }, rows, plain), Err(MISMATCH), "{state:?}");
        }
        assert_eq!(told(Writer::resume(&mut out, state).map(|_| ())), Err(MISMATCH), "{state:?}");
    }
}

/// Sound bodies, each refused, and taken once it is brought into that form.
#[test]
fn bodies_that_are_not_canonical() {
    for (rows, body) in [
        (40, &[0x20003, 0xFF][..]),
        (32, &[0x20000, 0]),
        (32, &[0x20000, !0]),
        (64, &[0x3, 0x3]),
        (64, &[0x20000, 0x1, 0x20000, 0x1]),
        (64, &[0x2, 0x20000, 0x1]),
        (32, &[0x20001, 0x1]),
        (32, &[0, 0x2]),
        (32, &[0x2, 0]),
        (0, &[0]),
    ] {
        assert_eq!(check_body(body, rows), Ok(()));
        let (mut out, mut state) = kept(9, body, rows.into());
        assert_eq!(given(&mut out, &mut state, 0, &[]), Err(MISMATCH), "{body:x?}");
        let mut canonical = [0; 9];
        let words = to_ewah(body, rows, &mut canonical).unwrap();
        let (mut out, mut state) = kept(9, &canonical[..words], rows.into());
        assert_eq!(given(&mut out, &mut state, 0, &[]), Ok(words));
    }
}

/// Other rows, or another body, that pass are gone on with.
#[test]
fn what_passes_is_gone_on_with() {
    let (mut out, mut state) = kept(9, &FORTY, 41);
    assert_eq!(given(&mut out, &mut state, 1, &[1]), Ok(3));
    assert_eq!(out[..3], [0x40000, 0x1, 0x280]);
    let (mut out, mut state) = kept(9, &[0x5], 40);
    assert_eq!(given(&mut out, &mut state, 1, &[1]), Ok(1));
    assert_eq!(out[0], 0x5);
}

#[test]
fn a_buffer_without_room_measures() {
    let mut state = begin(&[]);
    assert_eq!(state, AppendState::default());
    assert_eq!(given(&mut [], &mut state, 0, &[]), Ok(0));
    assert_eq!(given(&mut [], &mut state, 1, &[0]), no_room(1));
    assert_eq!(given(&mut [], &mut state, 40, &[0x1, 0x80]), no_room(3));
}

/// The most rows, one over, and a sum that would wrap in 32 bits; the body is that of `readings`.
#[test]
fn the_most_rows() {
    let mut most = vec![0x1FFFE; 512];
    most.push(0x400);
    let (mut out, mut state) = kept(513, &most, u64::from(MOST_ROWS) - 24);
    for rows in [25, MOST_ROWS, u32::MAX - MOST_ROWS + 25, u32::MAX] {
        assert_eq!(given(&mut out, &mut state, rows, &[0]), Err((3, 0, 1)));
    }
    assert_eq!(given(&mut out, &mut state, 24, &[0x80_0000]), no_room(514));
    assert_eq!(given(&mut out, &mut state, 24, &[0]), Ok(513));
    assert_eq!(state.rows, u64::from(MOST_ROWS));
    assert_eq!(given(&mut out, &mut state, 1, &[0]), Err((3, 0, 1)));
    assert_eq!(given(&mut out, &mut state, 0, &[]), Ok(513));
    // more values than there are rows left, without end
    let state = AppendState { rows: state.rows - 5, ..state };
    let mut writer = Writer::resume(&mut out, state).unwrap();
    assert_eq!(told(writer.append_each(std::iter::repeat(false))), Err((3, 0, 1)));
    assert_eq!(writer.append_each([false; 5]), Ok(513));
    assert_eq!(writer.rows(), MOST_ROWS);
}

#[test]
fn the_argument_is_told() {
    let (mut out, mut state) = kept(9, &FORTY, 40);
    let mut said_of = |rows, plain: &[u32]| said(append(&mut state, &mut out, rows, plain));
    assert_eq!(said_of(33, &[0]), "there are 1 plain words, and 33 rows need 2");
    assert_eq!(said_of(0, &[0]), "there are 1 plain words, and 0 rows need 0");
    let refusal = append(&mut begin(&[0; 9]), &mut [], 0, &[]).unwrap_err();
    assert_eq!(refusal.to_string(), "the writer's state and its buffer do not belong together (refusal 12)");
    assert_eq!(refusal.argument, None);
}

#[test]
fn a_writer() {
    let mut buffer = [UNTOUCHED; 4];
    let mut writer = Writer::new(&mut buffer);
    assert_eq!((writer.rows(), writer.words(), writer.body()), (0, 0, &[][..]));
    assert_eq!(writer.append_each([]), Ok(0));
    assert_eq!(writer.append(1, &[1]), Ok(1));
    assert_eq!(writer.append_each((1..40).map(|row| row == 39)), Ok(3));
    assert_eq!((writer.rows(), writer.words(), writer.body()), (40, 3, &FORTY[..]));
    // what is refused leaves it as it was
    assert_eq!(told(writer.append(33, &[1])), Err(BAD));
    // row 96 is set, behind 32 that are clear
    assert_eq!(told(writer.append(88, &[0, 0x100_0000, 0])), no_room(5));
    assert_eq!((writer.rows(), writer.body()), (40, &FORTY[..]));
    assert_eq!(writer.state(), AppendState { room: 4, rows: 40, words: 3 });
    let state = writer.into_state();
    assert_eq!(buffer, [0x40000, 0x1, 0x80, UNTOUCHED]);
    // and is gone on with, here and in another buffer
    let writer = Writer::resume(&mut buffer, state).unwrap();
    assert_eq!(told(writer.copied_to(&mut [0; 2]).map(|_| ())), no_room(3));
    let mut other = [UNTOUCHED; 5];
    let mut longer = writer.copied_to(&mut other).unwrap();
    assert_eq!(longer.append(88, &[0, 0x100_0000, 0]), Ok(5));
    assert_eq!((longer.rows(), longer.body()), (128, &[0x40000, 0x1, 0x80, 0x20002, 0x1][..]));
    assert_eq!((writer.rows(), writer.body()), (40, &FORTY[..]));
}

// ---- by chance

/// So many rows in runs, with lengths up to `longest`.
fn some_rows(random: &mut Random, rows: usize, longest: u64) -> Vec<bool> {
    let mut set = Vec::new();
    while set.len() < rows {
        set.extend(vec![random.below(2) == 1; 1 + random.below(longest) as usize]);
    }
    set.truncate(rows);
    set
}

fn plain_words(set: &[bool]) -> Vec<u32> {
    let word = |rows: &[bool]| rows.iter().rev().fold(0, |word, row| 2 * word + u32::from(*row));
    set.chunks(WORD_BITS).map(word).collect()
}

/// All of the rows as one body.
fn at_once(set: &[bool]) -> Vec<u32> {
    let mut body = vec![0; most_body_words(set.len() as u32)];
    let words = compress(set.len() as u32, &plain_words(set), &mut body).unwrap();
    body.truncate(words);
    body
}

/// Every batch is accepted, and makes the body of all rows so far, which never gets shorter.
#[test]
fn batches_by_chance_beside_all_at_once() {
    let mut random = Random(9);
    for case in 0..600 {
        let rows = random.below(500) as usize;
        let set = some_rows(&mut random, rows, [1, 3, 40, 400][case % 4]);
        let room = at_once(&set).len() + random.below(2) as usize;
        let (mut out, mut state) = kept(room, &[], 0);
        let mut so_far = 0;
        while so_far < rows {
            let batch = (random.below([2, 33, 97, 500][case / 4 % 4]) as usize).min(rows - so_far);
            let before = state.words;
            let plain = plain_words(&set[so_far..so_far + batch]);
            so_far += batch;
            let body = at_once(&set[..so_far]);
            assert_eq!(given(&mut out, &mut state, batch as u32, &plain), Ok(body.len()));
            assert_eq!(out[..body.len()], body);
            assert!(before <= state.words, "shorter");
        }
    }
}

/// In a buffer of any length a batch is refused just where the body of all rows, with it, is too long; then it is left
/// out, and the next one offered.
#[test]
fn batches_that_find_no_room() {
    let mut random = Random(10);
    for case in 0..600 {
        let (mut out, mut state) = kept(random.below(9) as usize, &[], 0);
        let (mut set, mut refused) = (Vec::new(), 0);
        for _ in 0..30 {
            let rows = random.below(70) as usize;
            let batch = some_rows(&mut random, rows, [1, 3, 40][case % 3]);
            let all = [&set[..], &batch].concat();
            let body = at_once(&all);
            let answer = given(&mut out, &mut state, rows as u32, &plain_words(&batch));
            if body.len() <= out.len() {
                assert_eq!((answer, &out[..body.len()]), (Ok(body.len()), &body[..]));
                set = all;
            } else {
                assert_eq!(answer, no_room(body.len() as u64));
                refused += 1;
            }
        }
        assert!(refused > 0, "case {case}");
    }
}

/// A bit of the words in use is turned: 12, unless they are a canonical body still, which is then gone on with.
#[test]
fn damaged_bodies() {
    let mut random = Random(11);
    let (mut refused, mut passed) = (0, 0);
    for case in 0..3_000 {
        let rows = 1 + random.below(200) as usize;
        let set = some_rows(&mut random, rows, [2, 20, 200][case % 3]);
        let mut body = at_once(&set);
        let place = random.below(body.len() as u64) as usize;
        body[place] ^= 1 << random.below(32);
        let (mut out, mut state) = kept(9, &body, rows as u64);
        let answer = given(&mut out, &mut state, 3, &[0b101]);
        let mut again = vec![0; most_body_words(rows as u32)];
        let canonical = to_ewah(&body, rows as u32, &mut again).is_ok_and(|words| again[..words] == body);
        if !canonical {
            assert_eq!(answer, Err(MISMATCH), "{body:x?}");
            refused += 1;
            continue;
        }
        let mut rows: Vec<bool> = (0..rows as u32).map(|row| body_row(&body, rows as u32, row).unwrap().set).collect();
        rows.extend([true, false, true]);
        assert_eq!(out[..answer.unwrap()], at_once(&rows));
        passed += 1;
    }
    assert!(refused > 300 && passed > 300, "{refused} {passed}");
}

/// Over markers that are full, of clean segments of both values and of dirty words.
#[test]
fn long_bodies() {
    let mut random = Random(12);
    let runs = [(false, 2_097_120 + 77), (true, 2_097_120 + 32), (false, 45)];
    let mut set: Vec<bool> = runs.into_iter().flat_map(|(value, rows)| vec![value; rows]).collect();
    set.extend(some_rows(&mut random, 1_048_544 + 100, 8));
    let mut buffer = vec![0; most_body_words(set.len() as u32)];
    let mut writer = Writer::new(&mut buffer);
    let mut so_far = 0;
    while so_far < set.len() {
        let batch = (random.below(300_000) as usize).min(set.len() - so_far);
        writer.append_each(set[so_far..so_far + batch].iter().copied()).unwrap();
        so_far += batch;
    }
    assert_eq!(writer.rows() as usize, set.len());
    assert!(writer.body() == at_once(&set), "another body");
}

/// A year of half hours: one by one, by days, by some other number and at once.
#[test]
fn a_year_of_half_hours() {
    const YEAR: usize = 365 * 48;
    let mut random = Random(13);
    for longest in [2_000, 100, 12, 1] {
        let set = some_rows(&mut random, YEAR, longest);
        let whole = at_once(&set);
        for batch in [1, 7, 48, 1_000, YEAR] {
            let mut buffer = vec![0; whole.len()];
            let mut writer = Writer::new(&mut buffer);
            for rows in set.chunks(batch) {
                writer.append(rows.len() as u32, &plain_words(rows)).unwrap();
            }
            assert_eq!(writer.rows() as usize, YEAR);
            assert!(writer.body() == whole, "{batch} at a time, runs up to {longest}: another body");
        }
    }
}

//! Fixed cases of the last segment: empty, full or mixed, as a run or as a dirty word or literal, with every number of
//! pads, in either format.

use zvonurel::Format::{self, Ewah, Wah};
use zvonurel::{MOST_CLEAN, MOST_DIRTY, MOST_ROWS, WORD_BITS};

use crate::ask::words_needed;
use crate::encode::{fill, full, index_in, last_mask, marker, mask_last, one_run, plain_mask, settled, FORMATS};
use crate::fixed::values;
use crate::question::{Call, Question};
use crate::ranks;
use crate::session::Session;
use crate::tail::Spelling::{Dirty, Run};
use crate::tail::{index, tails, with_idle, Tail, FRONTS, SOME, SPELLINGS};

/// The most rows of these cases: five segments.
const MOST: u32 = 130;

pub fn run(session: &mut Session) {
    for format in FORMATS {
        for rows in 1..=MOST {
            alone(session, format, rows);
            one_by_one(session, format, rows);
            two_by_two(session, format, rows);
            columns(session, format, rows);
            pad_bits(session, format, rows);
            past_the_end(session, format, rows);
        }
        // what is made of two columns takes a run from 16 segments on
        let width = format.segment_rows() as u32;
        for count in [15, 16, 17, 31, 32, 33, 34] {
            for pads in [0, 1, 24, width - 1] {
                columns(session, format, width * count - pads);
            }
        }
        long_runs(session, format);
        most_rows(session, format);
    }
    many_dirty_words(session);
}

// ---- one bitmap ----

/// The last rows, and numbers that are no rows, those of the first and the last pad among them.
fn last_rows(format: Format, rows: u32) -> [u32; 6] {
    let end = (format.segment_rows() * format.segments(rows)) as u32;
    [rows.saturating_sub(2), rows - 1, rows, end - 1, end, u32::MAX]
}

/// The first and the last set row, and numbers that no set row has.
fn nths(tail: &Tail) -> Vec<u32> {
    let set: u32 = tail.plain().iter().map(|word| word.count_ones()).sum();
    let end = (tail.format.segment_rows() * tail.format.segments(tail.rows)) as u32;
    vec![0, set.wrapping_sub(1), set, set + 1, end - 1, end]
}

/// Asks with just the room that is needed, and with a word less.
pub fn fitting(session: &mut Session, words: &[u32], question: Question) {
    if session.difference.is_some() {
        return;
    }
    let need = words_needed(words, &question);
    for room in need.saturating_sub(1)..=need {
        session.ask(words, question.clone().room(room));
    }
}

fn alone(session: &mut Session, format: Format, rows: u32) {
    for tail in tails(format, rows, &SPELLINGS) {
        for body in tail.forms() {
            lone_body(session, &body, &tail);
        }
        fitting(session, &tail.plain(), Question::lone(Call::Compress, format, rows));
    }
}

fn lone_body(session: &mut Session, body: &[u32], tail: &Tail) {
    let of = |call: Call| Question::lone(call, tail.format, tail.rows);
    session.ask(body, of(Call::CheckBody));
    session.ask(body, of(Call::BodyCount));
    for row in last_rows(tail.format, tail.rows) {
        session.ask(body, of(Call::BodyRow).number(row));
    }
    for n in nths(tail) {
        session.ask(body, of(Call::BodyNth).number(n));
    }
    session.ask(body, of(Call::BodyWalk).number(tail.rows));
    fitting(session, body, of(Call::Expand));
    for call in Call::REWRITE_BODY {
        fitting(session, body, of(call));
    }
}

fn one_by_one(session: &mut Session, format: Format, rows: u32) {
    let tails = tails(format, rows, &SPELLINGS);
    let index = index(&tails);
    session.ask(&index, Question::new(Call::Check));
    for call in Call::REWRITE_INDEX {
        fitting(session, &index, Question::new(call));
    }
    for (k, tail) in (0..).zip(&tails) {
        one_bitmap(session, &index, k, tail);
    }
}

fn one_bitmap(session: &mut Session, index: &[u32], k: u32, tail: &Tail) {
    let of = |call: Call| Question::new(call).list(&[k]);
    for call in [Call::Bitmap, Call::BitmapRefusal, Call::Count, Call::Histogram] {
        session.ask(index, of(call));
    }
    for row in last_rows(tail.format, tail.rows) {
        session.ask(index, of(Call::Row).number(row));
    }
    for n in nths(tail) {
        session.ask(index, of(Call::Nth).number(n));
    }
    session.ask(index, of(Call::Walk).number(tail.rows));
    for call in [Call::ExpandBitmap, Call::Not, Call::BitmapToEwah, Call::BitmapToWah] {
        fitting(session, index, of(call));
    }
    fitting(session, index, of(Call::Threshold).number(1));
    for table in [[0, 0], [1, 0], [1, 1]] {
        fitting(session, index, of(Call::Symmetric).table(&table));
    }
}

// ---- several bitmaps ----

fn two_by_two(session: &mut Session, format: Format, rows: u32) {
    let tails = tails(format, rows, &FRONTS);
    let (index, n) = (index(&tails), tails.len() as u32);
    let room = format.most_body_words(rows);
    for (j, k) in (0..n).flat_map(|j| (0..n).map(move |k| (j, k))) {
        let of = |call: Call| Question::new(call).list(&[j, k]).room(room);
        for call in [Call::And, Call::Or, Call::Xor, Call::AndNot, Call::Histogram] {
            session.ask(&index, of(call));
        }
        for t in [1, 2] {
            session.ask(&index, of(Call::Threshold).number(t));
        }
        for table in [[1, 0, 0], [1, 1, 0], [1, 0, 1], [0, 1, 0]] {
            session.ask(&index, of(Call::Symmetric).table(&table));
        }
        let three = |call: Call| of(call).list(&[j, k, (j + k) % n]);
        session.ask(&index, three(Call::Threshold).number(2));
        session.ask(&index, three(Call::Symmetric).table(&[1, 0, 1, 0]));
        session.ask(&index, three(Call::Histogram));
    }
}

/// All rows that exist as the largest and as the smallest; and in turns another number of rows, of one or the other.
fn all_and_some(session: &mut Session, index: &[u32], list: &[u32], exists: Vec<u32>, turn: usize) {
    let there: u32 = exists.iter().map(|word| word.count_ones()).sum();
    let some = [1, there / 2, there.saturating_sub(1), there + 1][turn % 4];
    let ([largest, smallest, _], others) = (Question::ranks(list, there), Question::ranks(list, some));
    for question in [largest, smallest, others[turn % others.len()].clone()] {
        session.ask(index, question.room(exists.len() + 2));
    }
}

/// Any two as existence and slice, full ones among them, as run and as dirty word either way round. Many have strays.
fn columns(session: &mut Session, format: Format, rows: u32) {
    let tails = tails(format, rows, &FRONTS);
    let (index, n) = (index(&tails), tails.len() as u32);
    let room = format.most_sum_words(rows, 2);
    let ending = |last| tails.iter().position(|tail| tail.is(Run(true), last)).expect("one of them") as u32;
    let (run, dirty, mixed) = (ending(Run(true)), ending(Dirty(u32::MAX)), ending(Dirty(SOME)));
    for (exists, slice) in (0..n).flat_map(|j| (0..n).map(move |k| (j, k))) {
        let list = [exists, slice];
        values(session, &index, &list, &[0, rows - 1, rows, last_rows(format, rows)[3]]);
        all_and_some(session, &index, &list, tails[exists as usize].plain(), (rows + slice) as usize);
        // the others in turns
        let [sum, others @ ..] = Call::PAIRINGS;
        for (turn, second) in (rows as usize..).zip([[run, run], [run, dirty], [dirty, run], [run, mixed]]) {
            for call in [sum, others[turn % others.len()]] {
                session.ask(&index, Question::pair(call, &list, &second).room(room));
                session.ask(&index, Question::pair(call, &second, &list).room(room));
            }
        }
    }
    for (first, second) in [(run, dirty), (dirty, run), (run, run), (dirty, dirty)] {
        let (wide, other) = ([first, second, mixed, first], [second, mixed, first]);
        for call in Call::PAIRINGS {
            fitting(session, &index, Question::pair(call, &wide, &other));
            fitting(session, &index, Question::pair(call, &other, &wide));
        }
        session.ask(&index, Question::pair(Call::Changes, &wide, &other).number(rows));
        values(session, &index, &wide, &[0, rows - 1, rows]);
        ranks::ask(session, &index, &wide, &[1, rows / 2, rows - 1, rows, rows + 1]);
    }
}

// ---- faults ----

/// Every question on a body that has a fault, alone and behind a sound one.
pub fn refused(session: &mut Session, body: &[u32], format: Format, rows: u32) {
    for call in Call::ALL.into_iter().filter(|call| call.of_body()) {
        session.ask(body, Question::lone(call, format, rows).room(format.most_body_words(rows)));
    }
    let index = index_in(format, rows, &[one_run(format, true, format.segments(rows)), body.to_vec()]);
    for call in Call::ALL.into_iter().filter(|call| call.of_index()) {
        let question = Question::new(call).list(&[0, 1]).second(&[0, 0]).table(&[1, 0, 1]).number(1);
        session.ask(&index, question.room(format.most_sum_words(rows, 1)));
    }
}

/// All of these bits, the lowest and the highest.
fn some_of(bits: u32) -> Vec<u32> {
    match bits {
        0 => Vec::new(),
        _ => vec![bits, 1 << bits.trailing_zeros(), 1 << bits.ilog2()],
    }
}

/// Pad bits in a dirty word or a literal, and in a plain word.
fn pad_bits(session: &mut Session, format: Format, rows: u32) {
    let pads = full(format) & !last_mask(rows, format);
    for tail in tails(format, rows, &FRONTS) {
        let Dirty(_) = tail.last else { continue };
        for some in some_of(pads) {
            let mut body = tail.body(rows.is_multiple_of(2));
            *body.last_mut().expect("a last segment") |= some;
            let body = if format == Ewah { with_idle(&body, rows as usize) } else { body };
            refused(session, &body, format, rows);
        }
        for some in some_of(!plain_mask(rows)) {
            let mut plain = tail.plain();
            *plain.last_mut().expect("a plain word") |= some;
            session.ask(&plain, Question::lone(Call::Compress, format, rows).room(plain.len() + 1));
        }
    }
}

/// Runs that go one segment further than the last, or one less far; with dirty words before and behind.
fn past_the_end(session: &mut Session, format: Format, rows: u32) {
    let count = format.segments(rows);
    for value in [false, true] {
        let bodies = match format {
            Ewah => wrong_markers(value, count),
            Wah => wrong_fills(value, count),
        };
        for body in bodies {
            refused(session, &body, format, rows);
        }
    }
}

fn wrong_markers(value: bool, count: usize) -> Vec<Vec<u32>> {
    let front = [&[marker(false, 0, count - 1)][..], &vec![SOME; count - 1]].concat();
    vec![
        vec![marker(value, count + 1, 0)],
        vec![marker(value, count, 0), marker(value, 1, 0)],
        vec![marker(value, count, 0), marker(!value, 0, 0), marker(!value, 1, 0)],
        vec![marker(value, count - 1, 0), marker(value, 2, 0)],
        vec![marker(value, count, 1), 0],
        vec![marker(value, count + 1, 1)],
        [&front[..], &[marker(value, 2, 0)]].concat(),
        vec![marker(value, count - 1, 0)],
    ]
}

/// The same, and fills of no segments before, among and behind the others. Of one segment, one less is a fill of none.
fn wrong_fills(value: bool, count: usize) -> Vec<Vec<u32>> {
    let front = vec![SOME & full(Wah); count - 1];
    vec![
        vec![fill(value, count + 1)],
        vec![fill(value, count), fill(value, 1)],
        vec![fill(value, count), fill(value, 0)],
        vec![fill(value, count), fill(!value, 0), fill(value, 1)],
        vec![fill(value, count), 0],
        vec![fill(value, count), full(Wah)],
        vec![fill(value, count - 1), fill(value, 2)],
        vec![fill(value, count - 1), fill(!value, 0), fill(value, 1)],
        vec![fill(value, 0), fill(value, count)],
        vec![fill(value, 0), fill(value, count + 1)],
        [&front[..], &[fill(value, 2)]].concat(),
        [&front[..], &[fill(value, 0)]].concat(),
        [&front[..], &[0, 0]].concat(),
        vec![fill(value, count - 1)],
        front,
    ]
}

// ---- long ones ----

/// Questions on a body of all these rows, alone and beside none of them.
fn all_and_none(session: &mut Session, format: Format, rows: u32) {
    let [none, all] = [false, true].map(|value| one_run(format, value, format.segments(rows)));
    let alone = |call: Call| Question::lone(call, format, rows);
    session.ask(&all, alone(Call::BodyCount));
    session.ask(&all, alone(Call::BodyNth).number(rows - 1));
    session.ask(&all, alone(Call::BodyNth).number(rows));
    for call in Call::REWRITE_BODY {
        fitting(session, &all, alone(call));
    }
    let index = index_in(format, rows, &[&all, &none]);
    let of = |call: Call| Question::new(call).list(&[0, 1]).number(1).room(all.len() + 1);
    for call in [Call::And, Call::Xor, Call::Not, Call::Threshold, Call::Histogram] {
        session.ask(&index, of(call));
    }
    session.ask(&index, of(Call::Not).list(&[1]));
    session.ask(&index, of(Call::Symmetric).table(&[1, 0, 1]));
    for call in Call::PAIRINGS {
        session.ask(&index, of(call).second(&[0, 0]).room(3 * all.len() + 9));
    }
    values(session, &index, &[0, 1], &[rows - 1]);
    ranks::ask(session, &index, &[0, 1], &[rows - 1, rows, rows + 1]);
}

/// A run over the last segment that just fills a marker, and one more.
fn long_runs(session: &mut Session, format: Format) {
    let width = format.segment_rows();
    for count in [MOST_CLEAN, MOST_CLEAN + 1] {
        for pads in [1, width - 1] {
            let rows = (width * count - pads) as u32;
            all_and_none(session, format, rows);
            let mut plain = vec![u32::MAX; zvonurel::segments(rows)];
            mask_last(&mut plain, rows);
            let all = one_run(format, true, count);
            session.ask(&plain, Question::lone(Call::Compress, format, rows).room(all.len()));
            session.ask(&all, Question::lone(Call::Expand, format, rows).room(plain.len()));
        }
    }
}

/// A full last segment behind as many dirty words as a marker has, and among them.
fn many_dirty_words(session: &mut Session) {
    for count in [MOST_DIRTY, MOST_DIRTY + 1, MOST_DIRTY + 2] {
        let rows = (WORD_BITS * count - 5) as u32;
        let mut plain = vec![SOME; count];
        plain[count - 1] = plain_mask(rows);
        let (dirty, more) = plain.split_at(MOST_DIRTY);
        let body = [&[marker(false, 0, dirty.len())], dirty, &[marker(true, 0, more.len())], more].concat();
        let settled = settled(&plain, rows, Ewah);
        let index = index_in(Ewah, rows, &[&body, &settled]);
        let of = |call: Call| Question::new(call).list(&[0, 1]).number(2).room(settled.len());
        session.ask(&plain, Question::lone(Call::Compress, Ewah, rows).room(settled.len()));
        for call in [Call::And, Call::Xor, Call::Threshold, Call::Histogram] {
            session.ask(&index, of(call));
        }
        for k in [0, 1] {
            session.ask(&index, of(Call::Count).list(&[k]));
            session.ask(&index, of(Call::Not).list(&[k]).room(count + 2));
            for call in Call::PAIRINGS {
                session.ask(&index, of(call).list(&[k, 1 - k]).second(&[1 - k, k]).room(3 * count));
            }
            for call in Call::REWRITE_BITMAP {
                fitting(session, &index, of(call).list(&[k]));
            }
            let there: u32 = plain.iter().map(|word| word.count_ones()).sum();
            ranks::ask(session, &index, &[k, 1 - k], &[there / 2, there - 1, there, there + 1]);
        }
    }
}

/// As many rows as there can be, but for one.
fn most_rows(session: &mut Session, format: Format) {
    let rows = MOST_ROWS - 1;
    let [none, all] = [false, true].map(|value| one_run(format, value, format.segments(rows)));
    session.ask(&all, Question::lone(Call::BodyCount, format, rows));
    session.ask(&all, Question::lone(Call::BodyNth, format, rows).number(rows - 1));
    for call in [Call::BodyToEwah, Call::BodyToWah] {
        session.ask(&all, Question::lone(call, format, rows).room(all.len().max(9)));
    }
    let room = none.len();
    let index = index_in(format, rows, &[none, all]);
    for k in [0, 1] {
        session.ask(&index, Question::new(Call::Not).list(&[k]).room(room));
    }
}

//! Fixed cases of the pieces that rows lie in: runs and dirty words, fills and literals beside each other, idle
//! markers everywhere, runs that fill a marker, more pieces than are walked, and the most rows. The last piece, cut at
//! every row, is in `tails`.

use zvonurel::Format::{self, Ewah};
use zvonurel::{MOST_CLEAN, MOST_DIRTY, MOST_ROWS};

use crate::counting::mixed_words;
use crate::draft::Draft;
use crate::encode::{full, index_in, one_run, FORMATS};
use crate::question::{Call, Question};
use crate::random::Random;
use crate::second::pieces;
use crate::session::Session;
use crate::tail::SOME;
use crate::walk::MOST_MET;

/// Pieces whose rows are asked about: all of a few; else as many of the first ones, and of the last.
const ENDS: usize = 12;

pub fn run(session: &mut Session) {
    for format in FORMATS {
        side_by_side(session, format);
        full_runs(session, format);
        many_pieces(session, format);
        most_rows(session, format);
    }
    idle_markers(session);
}

/// Both ends of each piece and a row between them, and numbers that are no rows.
fn rows_asked(pieces: &[(u32, u32)], rows: u32) -> Vec<u32> {
    let behind = pieces.len().saturating_sub(ENDS).max(ENDS.min(pieces.len()));
    let some = pieces.iter().take(ENDS).chain(&pieces[behind..]);
    let mut asked: Vec<u32> = some.flat_map(|&(first, last)| [first, first.midpoint(last), last]).collect();
    asked.dedup();
    asked.extend([rows, rows + 1, u32::MAX]);
    asked
}

fn ask(session: &mut Session, mut draft: Draft, pads: usize) {
    let rows = draft.rows(pads);
    ask_body(session, draft.format, rows, &draft.body);
}

/// Rows and a walk, of the body alone and in an index, behind a bitmap of runs alone.
fn ask_body(session: &mut Session, format: Format, rows: u32, body: &[u32]) {
    let index = ask_rows(session, format, rows, body);
    session.ask(body, Question::lone(Call::BodyWalk, format, rows).number(rows));
    session.ask(&index, Question::new(Call::Walk).list(&[1]).number(rows));
}

/// The rows alone, of both; the index.
fn ask_rows(session: &mut Session, format: Format, rows: u32, body: &[u32]) -> Vec<u32> {
    let alone = Question::lone(Call::BodyRow, format, rows);
    let index = index_in(format, rows, &[&one_run(format, true, format.segments(rows)), body]);
    if session.difference.is_none() {
        let pieces = pieces(body, &alone).expect("a sound body");
        for row in rows_asked(&pieces, rows) {
            session.ask(body, alone.clone().number(row));
            session.ask(&index, Question::new(Call::Row).list(&[1]).number(row));
        }
    }
    index
}

/// Every two of these beside each other: runs of either value, of no segments, one or two, with no word behind them, a
/// clean one, or a mixed one and a clean one. In WAH a run of one segment is a fill beside literals.
fn side_by_side(session: &mut Session, format: Format) {
    let dirty: [&[u32]; 4] = [&[], &[0], &[u32::MAX], &[SOME, 0]];
    let runs = [(false, 0), (true, 0), (false, 1), (true, 1), (false, 2), (true, 2)];
    let all: Vec<(bool, usize, &[u32])> =
        runs.iter().flat_map(|&(value, clean)| dirty.map(|dirty| (value, clean, dirty))).collect();
    for (&(value, clean, dirty), &(other, more, behind)) in all.iter().flat_map(|a| all.iter().map(move |b| (a, b))) {
        let draft = Draft::new(format).then(value, clean, dirty).then(other, more, behind);
        let pads = [0, 1, format.segment_rows() - 1];
        for pads in &pads[..if draft.segments.is_empty() { 1 } else { 3 }] {
            ask(session, draft.clone(), *pads);
        }
    }
}

/// Before a run with its dirty word, between that and runs of the same value, behind them; one marker or many.
fn idle_markers(session: &mut Session) {
    let some = |draft: Draft, count: usize| (0..count).fold(draft, |draft, at| draft.idle(at % 3 == 1));
    let counts = [(1, 0, 0), (0, 1, 0), (0, 0, 1), (1, 1, 1), (70, 0, 0), (0, 70, 0), (0, 0, 70), (2, 5, 3)];
    for (before, among, behind) in counts {
        for value in [false, true] {
            let first = some(Draft::new(Ewah), before).then(value, 2, &[SOME]);
            let second = some(first, among).then(value, 1, &[]);
            let third = some(second, among).then(value, 3, &[]);
            ask(session, some(third.clone(), behind), 9);
            ask(session, some(third.words(&[SOME]), behind), 9);
        }
    }
    // a body of no rows has no piece, however many markers it has
    ask(session, some(Draft::new(Ewah), 70), 0);
}

/// Runs of as many segments as a marker counts, beside runs of the same value and of the other, idle markers and clean
/// words; as fills too.
fn full_runs(session: &mut Session, format: Format) {
    for value in [false, true] {
        let word = full(format) * u32::from(value);
        let full = Draft::new(format).then(value, MOST_CLEAN, &[]);
        ask(session, full.clone(), 0);
        ask(session, full.clone().then(value, 1, &[]), 0);
        ask(session, full.clone().then(value, 1, &[]).then(value, 1, &[SOME]), 3);
        ask(session, full.clone().idle(value).then(value, MOST_CLEAN, &[]), 5);
        ask(session, full.clone().then(!value, 1, &[]).then(value, 2, &[]), 0);
        ask(session, full.then(value, 0, &[word, SOME]).then(value, MOST_CLEAN - 1, &[]), 0);
        ask(session, Draft::new(format).then(value, 1, &[]).then(value, MOST_CLEAN, &[word]), 30);
    }
}

/// About as many pieces as are walked, and far more: runs of one segment, and all dirty words that a marker can have.
fn many_pieces(session: &mut Session, format: Format) {
    let runs = |count: usize| (0..count).fold(Draft::new(format), |draft, at| draft.then(at % 3 == 0, 1, &[]));
    for count in [MOST_MET - 1, MOST_MET, MOST_MET + 1, MOST_MET + 2, 3 * MOST_MET] {
        ask(session, runs(count), count % 7);
    }
    let words = mixed_words(&mut Random::for_case(0, 5), MOST_DIRTY + 2);
    let (most, more) = words.split_at(MOST_DIRTY);
    ask(session, Draft::new(format).words(most).words(more), 4);
    ask(session, Draft::new(format).then(true, 2, most).then(false, 3, more), 0);
}

/// The most rows there can be, and one less, in as few pieces as they can be, and with the last segment by itself. One
/// of them is walked, since a walk is slow here.
fn most_rows(session: &mut Session, format: Format) {
    let body = one_run(format, true, format.segments(MOST_ROWS));
    session.ask(&body, Question::lone(Call::BodyWalk, format, MOST_ROWS).number(MOST_ROWS));
    for rows in [MOST_ROWS - 1, MOST_ROWS] {
        let [before, last] = [format.segments(rows) - 1, 1].map(|segments| one_run(format, false, segments));
        ask_rows(session, format, rows, &one_run(format, true, format.segments(rows)));
        ask_rows(session, format, rows, &[before, last].concat());
    }
}

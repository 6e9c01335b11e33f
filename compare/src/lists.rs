//! Fixed cases of indexes with as many bitmaps, and of lists with as many numbers, as there can be.

use zvonurel::{Format, HISTOGRAM_COUNTS, MOST_BITMAPS, MOST_NAMED, WORD_BITS};

use crate::encode::{index_in, settled, FORMATS};
use crate::question::{Call, Question};
use crate::session::Session;

/// Three segments in either format, the last with pads.
const ROWS: u32 = 80;

/// By how many of the bitmaps rows are held: none, about each power of two, and all.
const HELD: [usize; 16] = [0, 1, 2, 3, 15, 16, 17, 63, 64, 65, 127, 128, 129, 254, MOST_NAMED - 1, MOST_NAMED];

/// A list of all bitmaps is as long as a list can be.
const _: () = assert!(MOST_BITMAPS as usize == MOST_NAMED);

pub fn run(session: &mut Session) {
    for format in FORMATS {
        let index = index_of(format, MOST_BITMAPS);
        for list in good_lists() {
            good_list(session, &index, format, &list);
        }
        let all: Vec<u32> = (0..MOST_BITMAPS).collect();
        over(session, &index, &[&all[..], &[0]].concat());
        over(session, &index, &vec![0; MOST_NAMED + 1]);
        every_call(session, &index);
        every_call(session, &index_of(format, MOST_BITMAPS + 1));
        no_rows(session, format);
    }
}

/// So many bitmaps. Row r is held by `HELD` of the first `MOST_BITMAPS`, other ones for each row.
fn index_of(format: Format, bitmaps: u32) -> Vec<u32> {
    let has = |k: usize, row: usize| (37 * k + 11 * row) % MOST_BITMAPS as usize;
    let mut bodies = Vec::new();
    for k in 0..bitmaps as usize {
        let mut plain = vec![0; zvonurel::segments(ROWS)];
        for row in (0..ROWS as usize).filter(|&row| has(k, row) < HELD[row % HELD.len()]) {
            plain[row / WORD_BITS] |= 1 << (row % WORD_BITS);
        }
        bodies.push(settled(&plain, ROWS, format));
    }
    index_in(format, ROWS, &bodies)
}

/// All bitmaps, forwards and backwards; without the last; some again and again; and lists about as long as what is
/// kept apart for short ones.
fn good_lists() -> Vec<Vec<u32>> {
    let all: Vec<u32> = (0..MOST_BITMAPS).collect();
    let short = [15, 16, 17, 63, 64, 65].map(|length| all[..length].to_vec());
    let long = vec![
        all.clone(),
        all.iter().rev().copied().collect(),
        all[..MOST_NAMED - 1].to_vec(),
        all.iter().map(|k| k % 7).collect(),
        vec![MOST_BITMAPS - 1; MOST_NAMED],
    ];
    [long, short.to_vec()].concat()
}

/// Every question on it, with the numbers about which rows are held.
fn good_list(session: &mut Session, index: &[u32], format: Format, list: &[u32]) {
    let of = |call: Call| Question::new(call).list(list).room(format.most_body_words(ROWS));
    session.ask(index, of(Call::Histogram));
    for t in HELD.into_iter().chain([MOST_NAMED + 1]) {
        session.ask(index, of(Call::Threshold).number(t as u32));
    }
    for yes in HELD {
        let mut table = vec![0; list.len() + 1];
        table[yes.min(list.len())] = 1;
        session.ask(index, of(Call::Symmetric).table(&table));
        table.iter_mut().for_each(|entry| *entry = 1 - *entry);
        session.ask(index, of(Call::Symmetric).table(&table));
    }
    for entries in HISTOGRAM_COUNTS - 2..=HISTOGRAM_COUNTS + 1 {
        session.ask(index, of(Call::Symmetric).table(&vec![1; entries]));
    }
    let mut two = vec![1; list.len() + 1];
    two[list.len()] = 2;
    session.ask(index, of(Call::Symmetric).table(&two));
}

/// A list that is too long, with thresholds and tables that would be right.
fn over(session: &mut Session, index: &[u32], list: &[u32]) {
    session.ask(index, Question::new(Call::Histogram).list(list));
    for t in [1, MOST_NAMED, MOST_NAMED + 1] {
        session.ask(index, Question::new(Call::Threshold).list(list).number(t as u32).room(9));
    }
    for entries in [list.len(), list.len() + 1] {
        session.ask(index, Question::new(Call::Symmetric).list(list).table(&vec![1; entries]).room(9));
    }
}

/// Each call with the last bitmap, and with one past it.
fn every_call(session: &mut Session, index: &[u32]) {
    for call in Call::ALL.into_iter().filter(|call| call.of_index()) {
        for last in [MOST_BITMAPS - 1, MOST_BITMAPS] {
            let question = Question::new(call).list(&[last, last]).second(&[last, last]).table(&[0, 1, 0]);
            session.ask(index, question.number(1).room(index.len() + 9));
        }
    }
}

/// Bitmaps of no rows.
fn no_rows(session: &mut Session, format: Format) {
    let nothing: &[u32] = &[];
    for bitmaps in [MOST_BITMAPS, MOST_BITMAPS + 1] {
        let index = index_in(format, 0, &vec![nothing; bitmaps as usize]);
        let all: Vec<u32> = (0..MOST_BITMAPS).collect();
        session.ask(&index, Question::new(Call::Threshold).list(&all).number(MOST_BITMAPS));
        session.ask(&index, Question::new(Call::Histogram).list(&all));
        for call in Call::REWRITE_INDEX {
            session.ask(&index, Question::new(call).room(index.len()));
        }
    }
}

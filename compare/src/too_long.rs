//! Answers that are indexes of as many words as an index may have, and of more: these are refused whatever the buffer,
//! with the words needed.

use reference::Mistake;
use zvonurel::Format::{self, Ewah, Wah};
use zvonurel::{segments, Refusal, ENTRY_WORDS, HEAD_WORDS, MOST_BITMAPS, MOST_COLUMN, MOST_INDEX_WORDS};
use zvonurel::{WAH_SEGMENT_ROWS, WORD_BITS};

use crate::ask::{Refused, Value};
use crate::encode::{fill, index_in, mask_last, settled};
use crate::question::{Call, Question};
use crate::session::Session;

type Part = fn(&mut Session);

/// The cheapest of them, as fixed cases.
const CASES: [Part; 4] = [
    |session| ask(session, || sum(Ewah)),
    |session| ask(session, || difference(Ewah)),
    |session| ask(session, || many_to_wah(false)),
    |session| ask(session, || many_to_wah(true)),
];

/// Mistakes that nothing else shows, each with the case that does.
const MISTAKES: [(Mistake, usize); 5] = [
    (Mistake::SumByBufferAlone, 0),
    (Mistake::DifferenceByBufferAlone, 1),
    (Mistake::RewriteByBufferAlone, 2),
    (Mistake::LongestIndexRefused, 3),
    (Mistake::LongNeedCut, 0),
];

pub fn run(session: &mut Session) {
    CASES.iter().for_each(|case| case(session));
}

/// The case for a mistake that nothing else shows.
pub fn showing(mistake: Mistake) -> Option<Part> {
    MISTAKES.iter().find(|(m, _)| *m == mistake).map(|&(_, case)| CASES[case])
}

/// Asks with a buffer that would do.
fn ask(session: &mut Session, long: fn() -> Long) {
    if session.difference.is_none() {
        let long = long();
        session.ask(&long.index, long.question.clone().room(long.need + 9));
    }
}

/// An index, and a question on it whose answer needs so many words.
pub struct Long {
    pub name: &'static str,
    pub index: Vec<u32>,
    pub question: Question,
    pub need: usize,
}

impl Long {
    /// No buffer, one a word short, one of as many words as an index may have, of just those needed, and a longer one.
    pub fn rooms(&self) -> Vec<usize> {
        let mut rooms = vec![0, self.need - 1, MOST_INDEX_WORDS, self.need, self.need + 9];
        rooms.dedup();
        rooms
    }

    /// What is due with a buffer of so many words.
    pub fn due(&self, room: usize) -> Result<Value, Refused> {
        match self.need <= room.min(MOST_INDEX_WORDS) {
            true => Ok(Value::Words(self.need)),
            false => Err((Refusal::NO_ROOM, 0, self.need as u64)),
        }
    }
}

/// Words before the bodies.
const fn contents(bitmaps: usize) -> usize {
    HEAD_WORDS + ENTRY_WORDS * bitmaps
}

/// Plain words in which so many rows are set, as many are not, and so on.
fn in_turns(rows: u32, run: usize) -> Vec<u32> {
    let mut plain = vec![0; segments(rows)];
    for (at, word) in plain.iter_mut().enumerate() {
        let set = |&bit: &usize| (WORD_BITS * at + bit) / run % 2 == 0;
        *word = (0..WORD_BITS).filter(set).map(|bit| 1 << bit).sum();
    }
    mask_last(&mut plain, rows);
    plain
}

/// So many rows set and as many not, in turns, leave no segment clean in either format.
const MIXED_RUN: usize = WAH_SEGMENT_ROWS - 1;

/// Takes the rows of so many whole segments of WAH at the front away, a few words' worth.
fn clear_front(plain: &mut [u32], wah_segments: usize) {
    let rows = WAH_SEGMENT_ROWS * wah_segments;
    plain[..rows / WORD_BITS].fill(0);
    plain[rows / WORD_BITS] &= u32::MAX << (rows % WORD_BITS);
}

/// A column of the most slices, all of them one bitmap, which has 2^26 rows and no clean segment, and another column.
/// What is made of them has one empty slice; the others, and existence, are that bitmap.
fn of_columns(name: &'static str, format: Format, call: Call, second: &[u32]) -> Long {
    const ROWS: u32 = 1 << 26;
    let body = settled(&in_turns(ROWS, MIXED_RUN), ROWS, format);
    let empty = settled(&vec![0; segments(ROWS)], ROWS, format);
    let list = [0; MOST_COLUMN];
    let need = contents(list.len() + 1) + list.len() * body.len() + empty.len();
    let question = Question::pair(call, &list, second);
    Long { name, index: index_in(format, ROWS, &[body, empty]), question, need }
}

/// Twice that column: the lowest slice is empty.
pub fn sum(format: Format) -> Long {
    of_columns("sum of columns", format, Call::Sum, &[0; MOST_COLUMN])
}

/// That column less 0: the sign is empty.
pub fn difference(format: Format) -> Long {
    of_columns("difference of columns", format, Call::SignedDifference, &[0, 1])
}

/// Fills of two segments, in WAH a word for 62 rows; in EWAH there are nearly twice as many words.
pub fn to_ewah() -> Long {
    const BITMAPS: usize = 34;
    const FILLS: usize = 1 << 20;
    let rows = (2 * WAH_SEGMENT_ROWS * FILLS) as u32;
    let body: Vec<u32> = (0..FILLS).map(|at| fill(at % 2 == 0, 2)).collect();
    let ewah = settled(&in_turns(rows, 2 * WAH_SEGMENT_ROWS), rows, Ewah);
    let index = index_in(Wah, rows, &vec![body; BITMAPS]);
    let need = contents(BITMAPS) + BITMAPS * ewah.len();
    Long { name: "fills to EWAH", index, question: Question::new(Call::IndexToEwah), need }
}

/// The segments of so many bitmaps in WAH, none of them clean, that an index has just no room for, and how many words
/// are too many.
const fn just_over(bitmaps: usize) -> (usize, usize) {
    let room = MOST_INDEX_WORDS - contents(bitmaps);
    let segments = room.div_ceil(bitmaps);
    (segments, bitmaps * segments - room)
}

/// Bitmaps in EWAH that in WAH have just more words than an index may; or just as many, where the first segments of
/// the last bitmap are clear, and so one word.
fn edge_to_wah(name: &'static str, bitmaps: usize, fits: bool) -> Long {
    let (segments, over) = just_over(bitmaps);
    let rows = (WAH_SEGMENT_ROWS * segments) as u32;
    let mut plain = in_turns(rows, MIXED_RUN);
    let mut bodies = vec![settled(&plain, rows, Ewah); bitmaps];
    if fits {
        clear_front(&mut plain, over + 1);
        bodies[bitmaps - 1] = settled(&plain, rows, Ewah);
    }
    let need = MOST_INDEX_WORDS + if fits { 0 } else { over };
    Long { name, index: index_in(Ewah, rows, &bodies), question: Question::new(Call::IndexToWah), need }
}

/// The most bitmaps.
pub fn many_to_wah(fits: bool) -> Long {
    edge_to_wah("the most bitmaps to WAH", MOST_BITMAPS as usize, fits)
}

/// Two of about the most rows.
pub fn two_to_wah(fits: bool) -> Long {
    edge_to_wah("two long bitmaps to WAH", 2, fits)
}

//! Cases that always run, so that rare places are reached every time.

use reference::limits::{LEAST_COLUMN, MOST_SUMMED, MOST_VALUED};
use zvonurel::Format::{self, Wah};
use zvonurel::{segments, INDEX_KIND, MOST_BITMAPS, MOST_INDEX_WORDS, MOST_ROWS, WORD_BITS};

use crate::ask::words_needed;
use crate::choose::ask_all;
use crate::encode::{entry_place, index_in, one_run, settled, FORMATS};
use crate::generate::{Effort, Form, Input};
use crate::question::{Call, Question};
use crate::random::Random;
use crate::samples::{Samples, SAMPLES, SLICES};
use crate::session::Session;
use crate::{batch_cases, corners, counting, lists, pieces, ranks, tails, too_long};

fn index_input(format: Format, words: Vec<u32>, rows: u32, plain: Vec<Vec<u32>>) -> Input {
    let bitmaps = plain.len() as u32;
    Input { form: Form::Index, format, words, rows, bitmaps, plain, effort: Effort::Full }
}

fn body_input(format: Format, words: &[u32], rows: u32, plain: &[u32]) -> Input {
    let plain = vec![plain.to_vec()];
    Input { form: Form::Body, format, words: words.to_vec(), rows, bitmaps: 1, plain, effort: Effort::Full }
}

/// LOOPED, cut at every word, with a word more, and with one or two words changed.
fn heads(samples: &Samples) -> Vec<Vec<u32>> {
    let (looped, kind) = (samples.looped, samples.format.index_kind());
    let changed = |places: &[(usize, u32)]| {
        let mut words = looped.to_vec();
        places.iter().for_each(|&(at, to)| words[at] = to);
        words
    };
    let mut all: Vec<Vec<u32>> = (0..=looped.len()).map(|length| looped[..length].to_vec()).collect();
    all.push([looped, &[0]].concat());
    all.extend([vec![0, 4], vec![kind, 0, 0], vec![kind, MOST_ROWS, 0], vec![kind, 4, 0, 0]]);
    // the other kind, and no kind
    all.extend([0, 1, 2, 3, 4, u32::MAX].map(|to| changed(&[(0, to)])));
    all.extend([MOST_ROWS + 1, u32::MAX].map(|to| changed(&[(1, to)])));
    all.extend([MOST_BITMAPS + 1, u32::MAX].map(|to| changed(&[(2, to)])));
    all.extend([(3, 10), (7, u32::MAX), (8, 3), (6, u32::MAX), (6, u32::MAX - 10)].map(|place| changed(&[place])));
    all.push(changed(&[(5, 12), (6, 99)]));
    all
}

/// All the small fixed inputs of a format.
fn inputs(samples: &Samples) -> Vec<Input> {
    let format = samples.format;
    let looped = vec![vec![0x3], vec![0xE], vec![0x8]];
    let mut all: Vec<Input> =
        heads(samples).into_iter().map(|words| index_input(format, words, 4, looped.clone())).collect();
    let plain = vec![1, 0x80];
    for &body in samples.bodies {
        all.push(body_input(format, body, 40, &plain));
        let index = index_in(format, 40, &[samples.bodies[0], body]);
        all.push(index_input(format, index, 40, vec![plain.clone(); 2]));
    }
    all.push(body_input(format, samples.bodies[3], MOST_ROWS + 1, &plain));
    for &body in samples.no_rows {
        all.push(body_input(format, body, 0, &[]));
        all.push(index_input(format, index_in(format, 0, &[body, body]), 0, vec![vec![]; 2]));
    }
    all
}

/// All of them, in parts that can run side by side, the longest ones last. Their arguments don't hang on the seed.
pub const PARTS: [fn(&mut Session); 11] = [
    |session| SAMPLES.iter().for_each(|samples| small(session, samples)),
    lists::run,
    ranks::run,
    corners::run,
    |session| FORMATS.into_iter().for_each(|format| edge_of_rows(session, format)),
    counting::run,
    pieces::run,
    batch_cases::run,
    edge_of_length,
    tails::run,
    too_long::run,
];

/// The small inputs of a format, and columns made of its slices.
fn small(session: &mut Session, samples: &Samples) {
    for (case, input) in inputs(samples).iter().enumerate() {
        ask_all(session, input, &mut Random::for_case(0, case as u64));
    }
    column_corners(session, samples);
    column_lengths(session, samples);
    late_strays(session, samples);
}

// ---- columns ----

/// A number that no slice of the samples has.
const NONE: u32 = SLICES as u32;

/// Pairs of columns of the slices.
const PAIRS: [(&[u32], &[u32]); 29] = [
    // existence empty, full, disjoint
    (&[0, 0], &[0, 0]),
    (&[0, 0], &[1, 1]),
    (&[1, 0], &[1, 5]),
    (&[2, 2, 5], &[3, 3]),
    (&[2, 6], &[3, 4, 0]),
    // a carry into the top slice
    (&[1, 1], &[1, 1]),
    (&[1, 1, 1, 1], &[1, 1]),
    (&[1, 2, 5, 3], &[1, 2, 3, 3]),
    // wasteful bodies
    (&[8, 8, 7], &[9, 9, 7]),
    (&[9, 7, 9, 6], &[8, 9, 8]),
    // a run over the pads and a dirty word
    (&[1, 10], &[10, 1]),
    (&[8, 10, 4], &[10, 8, 11]),
    (&[3, 11], &[11, 3, 4]),
    (&[10, 11, 10], &[10, 4, 10]),
    // 11 under such a run: only the rows
    (&[2, 10], &[10, 10]),
    (&[11, 10, 11], &[4, 11]),
    // 11 in the first column, in the second, in both; only beside the pads
    (&[2, 4], &[1, 1]),
    (&[1, 1], &[2, 2, 4]),
    (&[2, 4], &[3, 6]),
    (&[9, 6, 3], &[1, 1]),
    // 11 in several slices, a lower row in a later one
    (&[2, 4, 5], &[1, 1]),
    (&[3, 3, 5, 6, 2], &[0, 1]),
    (&[1, 5], &[0, 4, 6, 5]),
    // 8 and 11
    (&[2, 4], &[]),
    (&[2, 4], &[1]),
    (&[0], &[2, 4]),
    (&[2, 4], &[1, NONE]),
    (&[u32::MAX, 1], &[2, 4]),
    (&[NONE, 4], &[1]),
];

/// What is made of two, with buffers of about the words needed, and without one.
fn pairs(session: &mut Session, words: &[u32], first: &[u32], second: &[u32]) {
    for question in Call::PAIRINGS.map(|call| Question::pair(call, first, second)) {
        let need = words_needed(words, &question);
        for room in [0, need.saturating_sub(1), need, need + 9] {
            session.ask(words, question.clone().room(room));
        }
    }
    session.ask(words, Question::pair(Call::Changes, first, second));
}

/// The values at these rows, and the signed ones.
pub fn values(session: &mut Session, words: &[u32], list: &[u32], rows: &[u32]) {
    for question in rows.iter().flat_map(|&row| Question::values(list, row)) {
        session.ask(words, question);
    }
}

/// The pairs above, and the same lists where there are no rows or no bitmaps.
fn column_corners(session: &mut Session, samples: &Samples) {
    let format = samples.format;
    let no_rows: Vec<&[u32]> = samples.no_rows.iter().copied().cycle().take(SLICES).collect();
    let nothing: [&[u32]; 0] = [];
    let indexes = [(40, &samples.slices[..]), (0, &no_rows), (40, &nothing), (0, &nothing)];
    for words in indexes.map(|(rows, bodies)| index_in(format, rows, bodies)) {
        for (first, second) in PAIRS {
            pairs(session, &words, first, second);
            pairs(session, &words, second, first);
            pairs(session, &words, first, first);
            for list in [first, second] {
                values(session, &words, list, &[0, 3, 7, 30, 31, 32, 35, 39, 40, u32::MAX]);
                ranks::ask(session, &words, list, &[0, 1, 2, 8, 9, 30, 31, 32, 39, 40, 41, u32::MAX]);
            }
        }
    }
}

/// Lists up to the longest and over, all ones: the sum of the widest two has the largest value there is, and the
/// differences of the widest and 0 are the largest and the least.
fn column_lengths(session: &mut Session, samples: &Samples) {
    let words = index_in(samples.format, 33, &samples.of_33);
    for length in [0, 1, LEAST_COLUMN, 3, 17, MOST_SUMMED, MOST_VALUED, MOST_VALUED + 1] {
        let ones = vec![0; length];
        values(session, &words, &ones, &[0, 32, 33]);
        ranks::ask(session, &words, &ones, &[0, 1, 32, 33, 34]);
        pairs(session, &words, &ones, &ones);
        for other in [&[0, 0][..], &[0, 1], &[0, 1, 1, 0], &[1, 0]] {
            pairs(session, &words, &ones, other);
            pairs(session, &words, other, &ones);
        }
    }
}

/// Lists as long as they can be, the first stray row in the last slice.
fn late_strays(session: &mut Session, samples: &Samples) {
    let words = index_in(samples.format, 40, &samples.slices);
    // The first segment's rows exist. Slices 6 and 9 keep to them; 3, 4 and 5 do not.
    for (good, stray) in [(6, 3), (6, 4), (6, 5), (9, 5)] {
        let late = |length: usize| {
            let mut list = vec![good; length];
            (list[0], list[length - 1]) = (2, stray);
            list
        };
        for length in [MOST_SUMMED, MOST_VALUED] {
            values(session, &words, &late(length), &[0, 7, 30, 31, 32, 40]);
            ranks::ask(session, &words, &late(length), &[0, 7, 31, 32, 33]);
        }
        let longest = late(MOST_SUMMED);
        pairs(session, &words, &longest, &[1, 1]);
        pairs(session, &words, &[1, 1], &longest);
        pairs(session, &words, &longest, &longest);
    }
}

/// The most rows there can be: none set in one bitmap, all in another, and just the last.
fn edge_of_rows(session: &mut Session, format: Format) {
    let [none, all] = [false, true].map(|value| one_run(format, value, format.segments(MOST_ROWS)));
    let mut plain = vec![0; segments(MOST_ROWS)];
    plain[segments(MOST_ROWS) - 1] = 1 << (WORD_BITS - 1);
    let room = all.len();
    let words = index_in(format, MOST_ROWS, &[none, all, settled(&plain, MOST_ROWS, format)]);
    let both = |call: Call| Question::new(call).list(&[0, 1]).number(1).room(room);
    let last = |call: Call| Question::new(call).list(&[1]).number(MOST_ROWS - 1);
    session.ask(&words, last(Call::Row));
    session.ask(&words, last(Call::Nth));
    session.ask(&words, last(Call::Nth).number(MOST_ROWS));
    session.ask(&words, last(Call::Count));
    session.ask(&words, both(Call::Not));
    session.ask(&words, both(Call::Xor));
    session.ask(&words, both(Call::Threshold));
    session.ask(&words, both(Call::Symmetric).table(&[1, 0, 1]));
    session.ask(&words, both(Call::Histogram));
    values(session, &words, &[1, 2], &[MOST_ROWS - 1, MOST_ROWS]);
    for list in [&[1, 2][..], &[1, 1], &[0, 0], &[0, 2], &[2, 2, 0]] {
        let half = MOST_ROWS / 2;
        ranks::ask(
            session,
            &words,
            list,
            &[0, 1, 2, half - 1, half, half + 1, MOST_ROWS - 1, MOST_ROWS, MOST_ROWS + 1],
        );
    }
    for call in Call::PAIRINGS {
        for first in [[1, 2], [0, 2]] {
            session.ask(&words, Question::pair(call, &first, &[1, 1]).room(100));
        }
    }
    session.ask(&words, Question::pair(Call::Changes, &[1, 2], &[1, 1]));
    for call in [Call::IndexToEwah, Call::IndexToWah] {
        session.ask(&words, Question::new(call).room(100));
    }
    session.ask(&plain, Question::lone(Call::Compress, format, MOST_ROWS).room(100));
}

/// An index one word too long, of either kind, and then one that is just not: a body of idle
/// markers for zero rows. In WAH that one is a body of literals, which has too many.
fn edge_of_length(session: &mut Session) {
    const START: usize = entry_place(1);
    if session.difference.is_some() {
        return;
    }
    let mut words = vec![0; MOST_INDEX_WORDS + 1];
    let length = words.len() - START;
    words[..START].copy_from_slice(&[INDEX_KIND, 0, 1, START as u32, length as u32]);
    let mut long = index_input(Wah, words, 0, vec![vec![]]);
    for format in FORMATS {
        long.words[0] = format.index_kind();
        ask_all(session, &long, &mut Random::for_case(0, u64::MAX));
    }
    long.words[START - 1] -= 1;
    long.words.truncate(MOST_INDEX_WORDS);
    for format in FORMATS {
        long.words[0] = format.index_kind();
        session.ask(&long.words, Question::new(Call::Check));
        session.ask(&long.words, Question::new(Call::Threshold).list(&[0]).number(1));
        session.ask(&long.words, Question::new(Call::BitmapToWah).list(&[0]));
    }
}

//! Spoils sound bodies and indexes.

use zvonurel::Format::{self, Ewah, Wah};
use zvonurel::{ENTRY_WORDS, HEAD_WORDS, MOST_BITMAPS, MOST_CLEAN, MOST_DIRTY, MOST_ROWS, WAH_MOST_FILL, WORD_BITS};

use crate::encode::{entry_place, fill, marker, FORMATS};
use crate::random::Random;

/// The markers of one clean segment and of one dirty word.
const CLEAN: u32 = marker(false, 1, 0);
const DIRTY: u32 = marker(false, 0, 1);

/// The highest bit of a word.
const HIGHEST: u32 = 1 << (WORD_BITS - 1);

const EXTREMES: [u32; 16] = [
    0,
    1,
    2,
    3,
    MOST_BITMAPS,
    MOST_BITMAPS + 1,
    marker(false, MOST_CLEAN, 0),
    marker(true, MOST_CLEAN, 0),
    DIRTY,
    MOST_ROWS,
    MOST_ROWS + 1,
    HIGHEST - 1,
    HIGHEST,
    marker(false, 0, MOST_DIRTY),
    u32::MAX - 1,
    u32::MAX,
];

/// Fills of none, of one, of a few and of the most; literals of ones, of none and of a lone row.
const WAH_EXTREMES: [u32; 12] = [
    fill(false, 0),
    fill(true, 0),
    fill(false, 1),
    fill(true, 1),
    fill(false, 2),
    fill(true, 3),
    fill(false, WAH_MOST_FILL),
    fill(true, WAH_MOST_FILL),
    fill(false, MOST_CLEAN + 1),
    HIGHEST - 1,
    0,
    1,
];

/// The same word, a little or entirely different.
fn other_word(word: u32, format: Format, random: &mut Random) -> u32 {
    match format {
        Ewah => other_in_ewah(word, random),
        Wah => other_in_wah(word, random),
    }
}

fn other_in_ewah(word: u32, random: &mut Random) -> u32 {
    match random.below(11) {
        0 => word.wrapping_add(1),
        1 => word.wrapping_sub(1),
        2 => word.wrapping_add(CLEAN),
        3 => word.wrapping_sub(CLEAN),
        4 => word.wrapping_add(DIRTY),
        5 => word.wrapping_sub(DIRTY),
        6 => word ^ (1 << random.below(WORD_BITS)),
        7 => word | HIGHEST,
        8 => word ^ 1,
        9 => random.word(),
        _ => random.pick(&EXTREMES),
    }
}

fn other_in_wah(word: u32, random: &mut Random) -> u32 {
    match random.below(10) {
        0 => word.wrapping_add(1),
        1 => word.wrapping_sub(1),
        // a fill of no segments
        2 => (word | HIGHEST) & !(WAH_MOST_FILL as u32),
        3 => word ^ HIGHEST,
        4 => word ^ fill(true, 0) ^ HIGHEST,
        5 => word ^ (1 << random.below(WORD_BITS)),
        6 => random.word(),
        7 => random.pick(&EXTREMES),
        _ => random.pick(&WAH_EXTREMES),
    }
}

/// One word changed, if there is one.
pub fn change(words: &mut [u32], format: Format, random: &mut Random) {
    let at = random.below(words.len());
    if let Some(word) = words.get_mut(at) {
        *word = other_word(*word, format, random);
    }
}

fn cut(words: &mut Vec<u32>, random: &mut Random) {
    let by = match random.below(4) {
        0 => random.between(0, words.len()),
        _ => random.between(1, 3),
    };
    words.truncate(words.len().saturating_sub(by));
}

fn append(words: &mut Vec<u32>, random: &mut Random) {
    for _ in 0..random.between(1, 3) {
        let word = random.word();
        words.push(random.pick(&[0, 1, 2, word, HIGHEST, HIGHEST + 1, u32::MAX]));
    }
}

/// One to three faults in a body. It may turn out sound all the same.
pub fn tear_body(words: &mut Vec<u32>, format: Format, random: &mut Random) {
    for _ in 0..random.pick(&[1, 1, 2, 3]) {
        match random.below(10) {
            0..=5 => change(words, format, random),
            6 => cut(words, random),
            7 => append(words, random),
            8 if !words.is_empty() => {
                words.remove(random.below(words.len()));
            }
            _ => {
                let word = random.word();
                let extreme = random.pick(&WAH_EXTREMES);
                words.insert(random.between(0, words.len()), random.pick(&[word, extreme]));
            }
        }
    }
}

/// One to three faults anywhere in an index.
pub fn tear_index(words: &mut Vec<u32>, format: Format, random: &mut Random) {
    for _ in 0..random.pick(&[1, 1, 2, 3]) {
        match random.below(12) {
            0 => kind(words, random),
            1 => head(words, 1, random),
            2 => head(words, 2, random),
            3..=5 => entry(words, random),
            6 => cut(words, random),
            7 => append(words, random),
            _ => change(words, format, random),
        }
    }
}

/// Word 0 changed: to the other kind, about the two, or to anything.
fn kind(words: &mut [u32], random: &mut Random) {
    if let Some(word) = words.first_mut() {
        let any = other_in_ewah(*word, random);
        *word = random.pick(&[0, 1, 2, 3, 4, any]);
    }
}

/// The rows or N changed.
fn head(words: &mut [u32], at: usize, random: &mut Random) {
    if let Some(word) = words.get_mut(at) {
        *word = match at {
            1 => tear_rows(*word, random),
            _ => other_in_ewah(*word, random),
        };
    }
}

/// A start, a length or both changed by one, or to something extreme.
fn entry(words: &mut [u32], random: &mut Random) {
    let end = words.len().min(entry_place(*words.get(2).unwrap_or(&0) as usize));
    if end <= HEAD_WORDS {
        return;
    }
    let at = random.between(HEAD_WORDS, end - 1);
    words[at] = other_place(words[at], random);
    let start = (at - HEAD_WORDS).is_multiple_of(ENTRY_WORDS);
    if start && at + 1 < end && random.one_in(3) {
        words[at + 1] = other_place(words[at + 1], random);
    }
}

fn other_place(word: u32, random: &mut Random) -> u32 {
    match random.below(4) {
        0 => word.wrapping_add(1),
        1 => word.wrapping_sub(1),
        2 => u32::MAX - random.below(80) as u32,
        _ => random.pick(&EXTREMES),
    }
}

/// Other rows, near or far.
pub fn tear_rows(rows: u32, random: &mut Random) -> u32 {
    let width = random.pick(&FORMATS).segment_rows() as u32;
    match random.below(8) {
        0 => rows.wrapping_add(1),
        1 => rows.wrapping_sub(1),
        2 => rows.wrapping_add(width),
        3 => rows.wrapping_sub(width),
        4 => rows ^ (1 << random.below(6)),
        5 => MOST_ROWS + 1 + random.below(2) as u32 * random.word() / 2,
        6 => random.word(),
        _ => random.pick(&EXTREMES),
    }
}

//! Fixed cases of counting: a marker's dirty words are counted many at once, so their number, the markers around them
//! and the sums inside matter. The same rows are asked of literals.

use zvonurel::{Format, MOST_DIRTY};

use crate::draft::{Draft, COUNTED};
use crate::encode::{index_in, joined, settled, FORMATS};
use crate::question::{Call, Question};
use crate::random::Random;
use crate::session::Session;

/// Dirty words that nth passes at once.
const PASSED: usize = 512;

/// Every question that counts, of the body alone and of an index in which its canonical form lies behind it.
fn ask(session: &mut Session, mut draft: Draft, pads: usize) {
    let rows = draft.rows(pads);
    let nths = draft.nths();
    let alone = |call: Call| Question::lone(call, draft.format, rows);
    session.ask(&draft.body, alone(Call::BodyCount));
    for &n in &nths {
        session.ask(&draft.body, alone(Call::BodyNth).number(n));
    }
    let plain = joined(&draft.segments, rows, draft.format);
    let index = index_in(draft.format, rows, &[draft.body, settled(&plain, rows, draft.format)]);
    for k in [0, 1] {
        session.ask(&index, Question::new(Call::Count).list(&[k]));
        for &n in &nths {
            session.ask(&index, Question::new(Call::Nth).list(&[k]).number(n));
        }
    }
}

/// A word that is not clean.
fn mixed(random: &mut Random) -> u32 {
    (random.word() & !2) | 1
}

/// So many of them.
pub fn mixed_words(random: &mut Random, count: usize) -> Vec<u32> {
    (0..count).map(|_| mixed(random)).collect()
}

/// So many words, about one in four of them this one.
fn words_among(random: &mut Random, count: usize, word: u32) -> Vec<u32> {
    let mut words = mixed_words(random, count);
    words.iter_mut().filter(|_| random.one_in(4)).for_each(|place| *place = word);
    words
}

pub fn run(session: &mut Session) {
    for format in FORMATS {
        let mut random = Random::for_case(0, 0);
        lengths(session, format, &mut random);
        block_ends(session, format, &mut random);
        no_rows(session, format);
        full_markers(session, format, &mut random);
        idle_markers(session, format, &mut random);
        long_carries(session, format, &mut random);
        single_bits(session, format);
    }
}

/// One marker of every length about the multiples of both blocks.
fn lengths(session: &mut Session, format: Format, random: &mut Random) {
    for length in (0..=200).chain(PASSED - COUNTED..=PASSED + 2 * COUNTED) {
        let words = match length % 3 {
            0 => mixed_words(random, length),
            1 => words_among(random, length, u32::MAX),
            _ => words_among(random, length, 0),
        };
        let pads = if length > 0 { random.below(format.segment_rows()) } else { 0 };
        ask(session, Draft::new(format).words(&words), pads);
    }
}

/// Whole blocks that end where a marker follows.
fn block_ends(session: &mut Session, format: Format, random: &mut Random) {
    for length in [COUNTED, 2 * COUNTED, PASSED, 2 * PASSED] {
        let first = Draft::new(format).words(&mixed_words(random, length));
        for pads in [0, 1, random.below(format.segment_rows()), format.segment_rows() - 1] {
            ask(session, first.clone().then(true, 3, &[]), pads);
            ask(session, first.clone().then(true, 1, &[]).idle(false), pads);
        }
        ask(session, first.clone().words(&mixed_words(random, 1)), 7);
        let runs = first.then(true, 2, &mixed_words(random, 5)).then(false, 70, &mixed_words(random, COUNTED));
        ask(session, runs.then(true, 1, &words_among(random, length, 0)), 30);
    }
}

/// Bodies of no rows. In WAH they have no words.
fn no_rows(session: &mut Session, format: Format) {
    let none = Draft::new(format);
    ask(session, none.clone(), 0);
    ask(session, none.clone().idle(false), 0);
    ask(session, none.idle(true).idle(false).idle(true), 0);
}

/// As many dirty words as a marker can have, and some more.
fn full_markers(session: &mut Session, format: Format, random: &mut Random) {
    for more in [1, COUNTED - 1, COUNTED, COUNTED + 1] {
        let full = Draft::new(format).words(&mixed_words(random, MOST_DIRTY));
        let mut draft = full.words(&mixed_words(random, more));
        // few edges, since the reference is slow with so many rows
        draft.edges = vec![PASSED, MOST_DIRTY / PASSED * PASSED, MOST_DIRTY];
        ask(session, draft, random.below(format.segment_rows()));
    }
}

/// Idle markers between blocks, and between every two markers.
fn idle_markers(session: &mut Session, format: Format, random: &mut Random) {
    let mut blocks = Draft::new(format);
    for length in [COUNTED, COUNTED, PASSED, PASSED] {
        blocks = blocks.idle(false).words(&mixed_words(random, length)).idle(true);
    }
    ask(session, blocks.clone(), 0);
    ask(session, blocks.then(true, 1, &[]).idle(true), 9);
    let mut every = Draft::new(format);
    for (at, length) in [1, COUNTED - 1, COUNTED, 0, COUNTED + 1, 2 * COUNTED, PASSED - 1, 3].into_iter().enumerate() {
        every = every.then(at % 2 == 0, at % 3, &words_among(random, length, u32::MAX)).idle(at % 2 == 1);
    }
    ask(session, every.clone(), 0);
    ask(session, every, 13);
}

/// Words that make sums carry far: all ones, all ones but for one word, and alternate bits.
fn long_carries(session: &mut Session, format: Format, random: &mut Random) {
    for length in [COUNTED, COUNTED + 1, 2 * COUNTED, PASSED, PASSED + COUNTED + 1] {
        ask(session, Draft::new(format).words(&vec![u32::MAX; length]), random.below(format.segment_rows()));
        let alternate: Vec<u32> = (0..length).map(|at| [0x5555_5555, 0xAAAA_AAAA][at % 2]).collect();
        ask(session, Draft::new(format).words(&alternate), 0);
    }
    for at in 0..COUNTED {
        for word in [0, mixed(random)] {
            let mut words = vec![u32::MAX; COUNTED];
            words[at] = word;
            ask(session, Draft::new(format).words(&words), 0);
        }
    }
}

/// One row: each bit of each word of a block by itself.
fn single_bits(session: &mut Session, format: Format) {
    let width = format.segment_rows();
    let rows = (width * COUNTED) as u32;
    let alone = |call: Call| Question::lone(call, format, rows);
    for row in 0..rows as usize {
        let mut words = [0; COUNTED];
        words[row / width] = 1 << (row % width);
        let body = Draft::new(format).words(&words).body;
        session.ask(&body, alone(Call::BodyCount));
        session.ask(&body, alone(Call::BodyNth));
        session.ask(&body, alone(Call::BodyNth).number(1));
    }
}

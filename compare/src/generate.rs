//! Makes the input of a case.

use zvonurel::{segments, Format, MOST_BITMAPS, MOST_CLEAN, MOST_DIRTY, WORD_BITS};

use crate::encode::{full, index_in, joined, last_mask, mask_last, other, Segments, FORMATS};
use crate::random::Random;
use crate::tear::{tear_body, tear_index, tear_rows};

#[derive(Debug, Clone, Copy, PartialEq, Eq)]
pub enum Form {
    Index,
    Body,
}

/// How many questions a case can afford.
#[derive(Debug, Clone, Copy, PartialEq, Eq)]
pub enum Effort {
    /// Every kind of argument with every kind of buffer.
    Full,
    /// Every kind of argument, one or two buffers each.
    Some,
    /// Every call, but few arguments and one buffer each: long inputs.
    Few,
}

pub struct Input {
    pub form: Form,
    /// That of the bodies. A torn index may say otherwise.
    pub format: Format,
    pub words: Vec<u32>,
    /// What the questions take for R and N. A torn index may say otherwise.
    pub rows: u32,
    pub bitmaps: u32,
    /// The plain words that the bodies were made of.
    pub plain: Vec<Vec<u32>>,
    pub effort: Effort,
}

#[derive(Clone, Copy, PartialEq, Eq)]
pub enum Style {
    Settled,
    Wasteful,
    Torn,
}

/// What an input is made as.
#[derive(Clone, Copy)]
pub struct Make {
    pub form: Form,
    pub format: Format,
    pub style: Style,
    pub effort: Effort,
}

/// The fewest and the most rows of a long input.
pub const LONG_ROWS: (usize, usize) = (25_000, 100_000);

/// The input of a case.
pub fn generate(random: &mut Random, long: bool) -> Input {
    let style =
        random.pick(&[Style::Settled, Style::Settled, Style::Wasteful, Style::Wasteful, Style::Torn, Style::Torn]);
    let format = random.pick(&FORMATS);
    if long {
        let rows = random.between(LONG_ROWS.0, LONG_ROWS.1) as u32;
        let make = Make { form: Form::Index, format, style, effort: Effort::Few };
        return made(random, make, rows, MOST_BITMAPS as usize);
    }
    if random.one_in(250) {
        let form = random.pick(&[Form::Body, Form::Index]);
        return long_runs(random, Make { form, format, style, effort: Effort::Few });
    }
    let form = match random.below(10) {
        0..=2 => Form::Body,
        _ => Form::Index,
    };
    let bitmaps = match form {
        Form::Body => 1,
        Form::Index => some_bitmaps(random),
    };
    let rows = some_rows(random, bitmaps);
    let effort = match bitmaps * segments(rows) {
        0..=150 => Effort::Full,
        _ => Effort::Some,
    };
    made(random, Make { form, format, style, effort }, rows, bitmaps)
}

/// More bitmaps than this are many.
const MANY: usize = 64;

/// Few mostly; seldom many, and as many as there can be.
fn some_bitmaps(random: &mut Random) -> usize {
    let most = MOST_BITMAPS as usize;
    match random.below(160) {
        0..=3 => 0,
        4..=91 => random.between(1, 4),
        92..=143 => random.between(5, 12),
        144..=157 => random.between(13, MANY),
        158 => random.between(MANY + 1, most - 1),
        _ => most,
    }
}

/// Small numbers mostly, smaller ones where there are many bitmaps. Some are those of whole segments, or one off.
fn some_rows(random: &mut Random, bitmaps: usize) -> u32 {
    let most = match random.below(20) {
        0..=3 => 40,
        _ if bitmaps > MANY => 150,
        4..=12 => 200,
        13..=17 => 700,
        18 => 2_000,
        _ if bitmaps > 8 => 1_000,
        _ => 8_000,
    };
    let rows = random.between(0, most);
    let width = random.pick(&FORMATS).segment_rows();
    let rows = match random.below(8) {
        0 => rows / width * width,
        1 => (rows / width * width + random.pick(&[0, 2])).saturating_sub(1),
        _ => rows,
    };
    rows as u32
}

/// Clean runs about the most of one marker and of two, and of three full ones.
pub const RUNS: [usize; 8] = [
    MOST_CLEAN - 1,
    MOST_CLEAN,
    MOST_CLEAN + 1,
    MOST_CLEAN + 2,
    2 * MOST_CLEAN - 1,
    2 * MOST_CLEAN,
    2 * MOST_CLEAN + 1,
    3 * MOST_CLEAN,
];

/// Dirty words about the most of one marker and of two.
pub const DIRTIES: [usize; 7] = [
    MOST_DIRTY - 1,
    MOST_DIRTY,
    MOST_DIRTY + 1,
    MOST_DIRTY + 2,
    2 * MOST_DIRTY - 1,
    2 * MOST_DIRTY,
    2 * MOST_DIRTY + 1,
];

/// Bodies at the limits of a marker's two counts, in WAH with as many segments. The first bitmap has the
/// long run or the many dirty words; a second one lies beside it in an index.
fn long_runs(random: &mut Random, make: Make) -> Input {
    let width = make.format.segment_rows();
    let mut words = Vec::new();
    for _ in 0..random.below(3) {
        words.push(some_word(random));
    }
    if random.one_in(2) {
        let value = random.pick(&[0, u32::MAX]);
        let run = random.pick(&RUNS);
        words.extend(std::iter::repeat_n(value, run));
    } else {
        let dirty = random.pick(&DIRTIES);
        words.extend((0..dirty).map(|_| 1 << random.below(width)));
    }
    for _ in 0..random.below(4) {
        words.push(some_word(random));
    }
    let rows = (width * words.len() - random.below(width)) as u32;
    end_somehow(&mut words, random);
    let mut all = vec![joined(&words, rows, make.format)];
    if make.form == Form::Index && random.one_in(2) {
        let other = derived(&all, rows, random);
        all.push(other);
    }
    finish(random, make, rows, all)
}

fn made(random: &mut Random, make: Make, rows: u32, bitmaps: usize) -> Input {
    let grid = some_grid(make.format, random);
    let mut plain: Vec<Vec<u32>> = Vec::new();
    for _ in 0..bitmaps {
        let next = match plain.is_empty() || random.below(3) > 0 {
            true => joined(&spelled(rows, grid, random), rows, grid),
            false => derived(&plain, rows, random),
        };
        plain.push(next);
    }
    finish(random, make, rows, plain)
}

/// The format whose segments the rows are laid out in, so that some are clean: mostly the bodies' own; else clean
/// segments come of rewriting.
pub fn some_grid(format: Format, random: &mut Random) -> Format {
    match random.one_in(4) {
        true => other(format),
        false => format,
    }
}

/// The words of the input, torn where the style says so.
pub fn finish(random: &mut Random, make: Make, rows: u32, plain: Vec<Vec<u32>>) -> Input {
    let Make { form, format, style, effort } = make;
    let mut bodies: Vec<Vec<u32>> = Vec::new();
    for words in &plain {
        bodies.push(some_body(words, rows, make, random));
    }
    let torn = style == Style::Torn;
    let mut claimed = rows;
    let words = match form {
        Form::Index => some_index(make, rows, bodies, random),
        Form::Body => {
            let mut body = bodies.swap_remove(0);
            if torn && random.one_in(4) {
                claimed = tear_rows(rows, random);
            } else if torn {
                tear_body(&mut body, format, random);
            }
            body
        }
    };
    Input { form, format, words, rows: claimed, bitmaps: plain.len() as u32, plain, effort }
}

/// A body of these words. A few of those that will be torn have pad bits.
fn some_body(plain: &[u32], rows: u32, make: Make, random: &mut Random) -> Vec<u32> {
    let torn = make.style == Style::Torn;
    let mut segments = Segments::of(plain, rows, make.format);
    if torn && random.one_in(12) {
        put_pads(&mut segments.words, rows, make.format, random);
    }
    let waste = make.style == Style::Wasteful || torn && random.one_in(2);
    match waste {
        true => segments.wasteful(random),
        false => segments.settled(),
    }
}

/// Sets pad bits, which makes a body of the segments unsound unless a run of ones spells the last.
fn put_pads(segments: &mut [u32], rows: u32, format: Format, random: &mut Random) {
    let pads = full(format) & !last_mask(rows, format);
    let some = random.word();
    if let Some(last) = segments.last_mut() {
        *last |= random.pick(&[full(format), pads, pads & some]);
    }
}

/// Half of the torn ones have a torn body under contents that are right.
fn some_index(make: Make, rows: u32, mut bodies: Vec<Vec<u32>>, random: &mut Random) -> Vec<u32> {
    let torn = make.style == Style::Torn;
    let inside = torn && !bodies.is_empty() && random.one_in(2);
    if inside {
        let k = random.below(bodies.len());
        tear_body(&mut bodies[k], make.format, random);
    }
    let mut words = index_in(make.format, rows, &bodies);
    if torn && (!inside || random.one_in(4)) {
        tear_index(&mut words, make.format, random);
    }
    words
}

// ---- segments, of which the bits past their width and the last row don't count yet ----

/// Half of the last segments are made empty, full or mixed, whatever the others are.
pub fn end_somehow(words: &mut [u32], random: &mut Random) {
    let some = random.word();
    if let Some(last) = words.last_mut().filter(|_| random.one_in(2)) {
        *last = random.pick(&[0, u32::MAX, some]);
    }
}

/// Any word: clean, nearly clean, or just anything.
pub fn some_word(random: &mut Random) -> u32 {
    match random.below(8) {
        0 => 0,
        1 => u32::MAX,
        2 => 1 << random.below(WORD_BITS),
        3 => !(1 << random.below(WORD_BITS)),
        4 => random.word() & random.word() & random.word(),
        5 => u32::MAX >> random.below(WORD_BITS),
        _ => random.word(),
    }
}

/// Segments of one bitmap: runs and mixed ones by a taste of its own.
pub fn spelled(rows: u32, grid: Format, random: &mut Random) -> Vec<u32> {
    let count = grid.segments(rows);
    let longest = random.pick(&[1, 3, 10, 40, count.max(1)]);
    let mixed_share = random.below(5);
    let mut words = Vec::new();
    while words.len() < count {
        let length = random.between(1, longest).min(count - words.len());
        if random.below(4) < mixed_share {
            words.extend((0..length).map(|_| some_word(random)));
        } else {
            let value = random.pick(&[0, 0, u32::MAX]);
            words.extend(std::iter::repeat_n(value, length));
        }
    }
    end_somehow(&mut words, random);
    words
}

/// Plain words of a relative of an earlier bitmap, so that answers have clean parts too.
fn derived(earlier: &[Vec<u32>], rows: u32, random: &mut Random) -> Vec<u32> {
    let mut plain = earlier[random.below(earlier.len())].clone();
    let other = &earlier[random.below(earlier.len())];
    match random.below(4) {
        0 => plain.iter_mut().for_each(|word| *word = !*word),
        1 => plain.iter_mut().zip(other).for_each(|(a, b)| *a &= !b),
        2 => plain.iter_mut().zip(other).for_each(|(a, b)| *a |= b),
        _ => {}
    }
    for _ in 0..random.below(3) {
        let at = random.below(plain.len());
        if let Some(word) = plain.get_mut(at) {
            *word = some_word(random);
        }
    }
    mask_last(&mut plain, rows);
    plain
}
